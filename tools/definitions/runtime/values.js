// Values that may wait, and lists.
'use strict';

// a value that is computed when it is first needed, once
class Thunk {
  constructor(make) {
    this.make = make;
    this.held = undefined;
  }
}

function force(x) {
  if (!(x instanceof Thunk)) return x;
  if (x.make !== null) {
    const make = x.make;
    x.held = make();
    x.make = null;
  }
  return x.held;
}

// whether there is nothing left to compute
function ready(x) {
  return !(x instanceof Thunk) || x.make === null;
}

class Nil {}
const nil = new Nil();

class Cons {
  constructor(head, tail) {
    this.head = head;
    this.tail = tail;
  }
}

// the list of an array's values from a place on: a list that was given from outside
class Given {
  constructor(array, from) {
    this.array = array;
    this.from = from;
  }

  get head() {
    return this.array[this.from];
  }

  get tail() {
    return given(this.array, this.from + 1);
  }
}

function given(array, from) {
  return from < array.length ? new Given(array, from) : nil;
}

// the values of a list, computed
function listed(list) {
  const found = [];
  let rest = force(list);
  for (; rest instanceof Cons; rest = force(rest.tail)) found.push(force(rest.head));
  return rest === nil ? found : found.concat(rest.array.slice(rest.from));
}

module.exports = { Thunk, force, ready, nil, Cons, Given, given, listed };
