'use strict';
// All cycles of a vocabulary of edges, up to a number of edges, without those that are others turned on or renamed.

const { Failure } = require('../lines.js');
const { faultOf } = require('./cycle.js');
const { ATOM, atomOf, edgeOf, sourceOf, targetOf } = require('./edges.js');
const { normal } = require('./families.js');
const { formOf } = require('./sameness.js');
const { Writer } = require('./writing.js');

const EVERY = ['Pod**', 'Pos**', 'Rfe', 'Fre', 'Coe'];

// Kinds of accesses, with their sizes: `P,A` are plain and atomic bytes.
function kindsOf(text) {
  return text.split(',').map((word) => {
    const found = new RegExp(`^${ATOM}$`).exec(word);
    if (found === null) throw new Failure(1, `${word} is no kind of access: P, A or D, and behind it perhaps b or h`);
    return atomOf(found[1], found[2]);
  });
}

// The words that a `*` in a word stands for.
const wordsOf = (word) => (word.includes('*') ? [...'WR'].flatMap((direction) => wordsOf(word.replace('*', direction))) : [word]);

// The edges that words name; one that doesn't say the kinds of its accesses is one of each of these.
function edgesOf(words, kinds) {
  const edges = words.flatMap(wordsOf).map(edgeOf).flatMap(({ name, source, target }) => (
    source.length > 1 ? [name + source + target] : kinds.flatMap((one) => kinds.map((other) => name + source + one + target + other))));
  return [...new Set(edges)].sort();
}

// Lists of edges, each of which begins where the one before it ends, the first where the last does, and none of which is less than the
// first.
function* closedWalks(edges, most) {
  const waiting = edges.map((edge) => [edge]);
  while (waiting.length) {
    const walk = waiting.pop();
    const end = targetOf(walk.at(-1));
    if (end === sourceOf(walk[0])) yield walk;
    const next = walk.length < most ? edges.filter((edge) => sourceOf(edge) === end && edge >= walk[0]) : [];
    waiting.push(...next.map((edge) => [...walk, edge]));
  }
}

// Each cycle once, in its normal rotation, those with fewer edges first.
function cycles(edges, most) {
  const found = new Map();
  for (const walk of closedWalks(edges, most)) {
    if (faultOf(walk) === null) {
      const cycle = normal(walk);
      found.set(`${cycle}`, cycle);
    }
  }
  const ordered = [...found].sort(([one, { length }], [other, { length: otherLength }]) => length - otherLength || (one < other ? -1 : 1));
  const forms = new Set();
  return ordered.map(([, cycle]) => cycle).filter((cycle) => {
    const form = formOf(new Writer(cycle).test());
    return !forms.has(form) && forms.add(form);
  });
}

module.exports = { EVERY, cycles, edgesOf, kindsOf };
