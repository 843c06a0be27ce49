// The native arithmetic against plain BigInt, about the places where the way a number is held changes.
'use strict';

const library = require('../runtime/library.js');

const LAWS = {
  add: (a, b) => a + b,
  monus: (a, b) => (a < b ? 0n : a - b),
  times: (a, b) => a * b,
  quotient: (a, b) => (b === 0n ? 0n : a / b),
  remainder: (a, b) => (b === 0n ? a : a % b),
  largest: (a, b) => (a < b ? b : a),
  smallest: (a, b) => (a < b ? a : b),
  bitOr: (a, b) => a | b,
  leb: (a, b) => a <= b,
  ltb: (a, b) => a < b,
  eqb: (a, b) => a === b,
};

const held = n => (n < 2n ** 53n ? Number(n) : n);

const numbers = [];
for (const power of [0n, 1n, 8n, 26n, 31n, 32n, 52n, 53n, 54n, 63n, 64n, 128n])
  for (const more of [-3n, -2n, -1n, 0n, 1n, 2n, 3n]) if (2n ** power + more >= 0n) numbers.push(2n ** power + more);

function check(name, a, b, found, wanted) {
  const right = typeof wanted === 'boolean' ? wanted : held(wanted);
  if (found !== right) throw new Error(`${name} ${a} ${b} gives ${found} and not ${right}`);
}

for (const [name, law] of Object.entries(LAWS))
  for (const a of numbers) for (const b of numbers) check(name, a, b, library[name](held(a), held(b)), law(a, b));
for (const a of [0n, 1n, 2n, 3n, 256n, 2n ** 53n]) for (let b = 0n; b < 70n; b += 1n) check('power', a, b, library.power(held(a), held(b)), a ** b);
