// The native functions. A natural number is a JavaScript number up to 2^53 - 1, and a BigInt above.
'use strict';

const values = require('./values.js');
const { force, nil, Cons, Given, given } = values;

const MOST = Number.MAX_SAFE_INTEGER;
const small = (a, b) => typeof a === 'number' && typeof b === 'number';
const held = n => (n <= MOST ? Number(n) : n);

// ---------------------------------------------------------------- numbers

function add(a, b) {
  if (small(a, b) && a + b <= MOST) return a + b;
  return held(BigInt(a) + BigInt(b));
}

function pred(a) {
  return monus(a, 1);
}

function monus(a, b) {
  if (a <= b) return 0;
  return small(a, b) ? a - b : held(BigInt(a) - BigInt(b));
}

function times(a, b) {
  if (a === 0 || b === 0) return 0;
  if (small(a, b) && a * b <= MOST) return a * b;
  return held(BigInt(a) * BigInt(b));
}

function quotient(a, b) {
  if (b === 0) return 0;
  return small(a, b) ? (a - (a % b)) / b : held(BigInt(a) / BigInt(b));
}

function remainder(a, b) {
  if (b === 0) return a;
  return small(a, b) ? a % b : held(BigInt(a) % BigInt(b));
}

function power(a, b) {
  if (a === 2 && b <= 30) return 1 << b;
  return held(BigInt(a) ** BigInt(b));
}

function largest(a, b) {
  return a < b ? b : a;
}

function smallest(a, b) {
  return a < b ? a : b;
}

function bitOr(a, b) {
  if (small(a, b) && a < 2 ** 31 && b < 2 ** 31) return a | b;
  return held(BigInt(a) | BigInt(b));
}

const leb = (a, b) => a <= b;
const ltb = (a, b) => a < b;
const eqb = (a, b) => a === b;

// ---------------------------------------------------------------- lists

function length(list) {
  let count = 0;
  let rest = list;
  for (; rest instanceof Cons; rest = force(rest.tail)) count += 1;
  return rest === nil ? count : count + rest.array.length - rest.from;
}

function drop(count, list) {
  let left = Number(count);
  let rest = list;
  for (; left > 0 && rest instanceof Cons; rest = force(rest.tail)) left -= 1;
  return rest instanceof Given ? given(rest.array, rest.from + left) : rest;
}

function getOr(list, place, other) {
  const rest = drop(place, list);
  return force(rest === nil ? other : rest.head);
}

function append(list, more) {
  const items = [];
  let rest = list;
  for (; rest !== nil; rest = force(rest.tail)) items.push(rest.head);
  if (items.length === 0) return force(more);
  let made = more;
  while (items.length > 0) made = new Cons(items.pop(), made);
  return made;
}

module.exports = { ...values, add, pred, monus, times, quotient, remainder, power, largest, smallest, bitOr, leb, ltb, eqb, length, drop, getOr, append };
