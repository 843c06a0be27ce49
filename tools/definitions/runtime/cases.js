// A case a line in, the answer a line out.
'use strict';

const { force, given, listed } = require('./values.js');

const ENTRIES = {
  apdu: (entries, c) => entries['parse_apdu'](c.frame, c.down, c.up, c.words),
  pdus: (entries, c) => entries['parse_pdus'](c.frame, number(c.direction), c.down, c.up, c.words),
  cm: (entries, c) => entries['parse_cm'](c.frame, number(c.direction), c.words),
  acse: (entries, c) => entries['parse_acse_apdu'](c.frame, c.words),
};

function bytes(text) {
  if (text === '-') return [];
  if (!/^([0-9a-fA-F]{2})+$/.test(text)) throw new Error(`no hexadecimal: ${text}`);
  return Array.from(Buffer.from(text, 'hex'));
}

function number(text) {
  if (!/^[0-9]+$/.test(text)) throw new Error(`no number: ${text}`);
  return BigInt(text) <= Number.MAX_SAFE_INTEGER ? Number(text) : BigInt(text);
}

// what the lent words hold before a call
const before = place => (place * 40503 + 977) % 1048573;

function lent(room) {
  return Array.from({ length: room }, (_, place) => before(place));
}

// the answer by its constructor's name, with its numbers
function opened(answer) {
  const { a0, a1, a2, a3 } = answer;
  return { name: answer.constructor.names[answer.tag], parts: [a0, a1, a2, a3].map(force) };
}

function shown(outcome, room) {
  const { name, parts } = opened(force(outcome[0]));
  const words = listed(outcome[1]);
  const count = name === 'accepted' ? parts[3] : 0;
  const stayed = words.length === room && words.every((word, place) => place < 5 * count || word === before(place));
  return said(name, parts, words.slice(0, 5 * count)) + (stayed ? '' : ' dirty');
}

function said(name, parts, words) {
  if (name === 'refused') {
    const [number, reach, need, lacked] = parts;
    return `no ${number} ${reach}` + (number === 7 ? ` ${need}` : '') + (number === 4 ? ` ${lacked}` : '');
  }
  const [cut, reach, marks, count] = parts;
  let text = `ok ${cut ? 'cut' : 'whole'} ${reach} ${marks} ${count}`;
  for (let at = 0; at < words.length; at += 5) text += ';' + words.slice(at, at + 5).join(',');
  return text;
}

// an answer to a line; the lists of the words and tables of the last lines are kept
function answerer(entries) {
  const keep = make => {
    const kept = new Map();
    return key => {
      if (!kept.has(key)) {
        if (kept.size > 64) kept.clear();
        kept.set(key, given(make(key), 0));
      }
      return kept.get(key);
    };
  };
  const table = keep(bytes);
  const words = keep(lent);
  return line => {
    const [entry, direction, down, up, frame, room, ...more] = line.trim().split(/\s+/);
    if (!(entry in ENTRIES) || room === undefined || more.length > 0) throw new Error(`no case: ${line}`);
    const outcome = ENTRIES[entry](entries, {
      direction,
      down: table(down),
      up: table(up),
      frame: given(bytes(frame), 0),
      words: words(number(room)),
    });
    return shown(outcome, number(room));
  };
}

module.exports = { answerer };
