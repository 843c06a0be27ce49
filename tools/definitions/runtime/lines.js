// Lines in, an answer out for each; what came in together is answered together.
'use strict';

const fs = require('fs');

// a call that is tried again while the other side is not ready
function patiently(call) {
  for (;;) {
    try {
      return call();
    } catch (error) {
      if (error.code !== 'EAGAIN') throw error;
      Atomics.wait(new Int32Array(new SharedArrayBuffer(4)), 0, 0, 1);
    }
  }
}

function write(text) {
  const all = Buffer.from(text, 'latin1');
  for (let at = 0; at < all.length; ) at += patiently(() => fs.writeSync(1, all, at));
}

function lines(answer) {
  const block = Buffer.alloc(1 << 16);
  let rest = '';
  for (;;) {
    const size = patiently(() => fs.readSync(0, block, 0, block.length, null));
    const found = (rest + block.toString('latin1', 0, size)).split('\n');
    rest = found.pop();
    if (size === 0 && rest !== '') found.push(rest);
    write(found.map(line => answer(line) + '\n').join(''));
    if (size === 0) return;
  }
}

module.exports = { lines };
