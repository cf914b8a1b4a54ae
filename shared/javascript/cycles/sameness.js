'use strict';
// Whether two tests are the same up to names: those of agents, registers and bytes, and of the numbers that are stored in a byte.

const { eventsOf, isIf } = require('../text/tests.js');

// The comparisons of a condition that asks for one outcome, or null.
function members(condition) {
  const found = condition.all ?? [condition];
  return found.every(({ equal }) => equal) ? found : null;
}

// Names given anew, in the order in which they are met.
class Names {
  constructor(size, events) {
    // Of each byte its cell: the first byte of those that accesses join.
    this.first = Array.from({ length: size }, (_, byte) => byte);
    for (const { bytes } of events) {
      const met = bytes.map((byte) => this.first[byte]);
      this.first = this.first.map((each) => (met.includes(each) ? Math.min(...met) : each));
    }
    this.wide = events.filter((event) => event.size > 1).map(({ first }) => this.first[first]);
    this.cells = new Map();
    this.values = new Map();
  }

  static given(names, name, next) {
    if (!names.has(name)) names.set(name, next);
    return names.get(name);
  }

  cell(byte) {
    return [Names.given(this.cells, this.first[byte], this.cells.size), byte - this.first[byte]];
  }

  // A number that is stored in a byte, where all accesses of its cell are of one byte.
  value(byte, value) {
    if (!value || this.wide.includes(this.first[byte])) return value ?? 0;
    const known = Names.given(this.values, this.first[byte], new Map());
    return Names.given(known, value, known.size + 1);
  }
}

// The test with its agents in this order and all names given anew.
function spelled(size, agents, asked) {
  const names = new Names(size, agents.flatMap(({ events }) => events));
  const loads = new Map();
  const spelling = agents.flatMap(({ name, events }, place) => events.map((event, number) => {
    const { register, atomic, isView, first, writes, expected } = event;
    if (register !== null) loads.set(`${name}.${register}`, [place, number, first]);
    return [place, atomic, isView, event.size, register !== null, names.cell(first), names.value(first, writes), expected ?? 0];
  }));
  const condition = asked.map(({ agent, register, number }) => {
    const [place, at, first] = loads.get(`${agent}.${register}`);
    return [place, at, names.value(first, number)];
  });
  return JSON.stringify([spelling, condition.map(String).sort()]);
}

function* permutations(list) {
  if (list.length === 0) yield [];
  for (const each of list) for (const rest of permutations(list.filter((other) => other !== each))) yield [each, ...rest];
}

// The orders of agents in which those that are alike stand together.
function* orders([group, ...groups]) {
  if (group === undefined) yield [];
  else for (const rest of orders(groups)) for (const first of permutations(group)) yield [...first, ...rest];
}

// The same for tests that are the same up to names, and for no others; null for a test with an if, or with a condition that asks for more
// than one outcome.
function formOf({ bytes, agents, condition }) {
  const asked = members(condition);
  if (asked === null || agents.some(({ statements }) => statements.some(isIf))) return null;
  const groups = new Map();
  for (const { name, statements } of agents) {
    const events = eventsOf(statements);
    const key = JSON.stringify(events.map((each) => [each.atomic, each.isView, each.size, each.register !== null, each.writes !== null]));
    groups.set(key, [...groups.get(key) ?? [], { name, events }]);
  }
  let least = null;
  for (const order of orders([...groups].sort().map(([, group]) => group))) {
    const form = spelled(bytes, order, asked);
    if (least === null || form < least) least = form;
  }
  return least;
}

module.exports = { formOf };
