'use strict';
// Edges of a cycle as diy7 has them: PodWR, PosRR, Rfe, Fre, Coe. An edge is a word of nine signs, so that edges are compared as words:
// its name, Pod, Pos, Rfe, Fre or Coe, its source and its target. An access has three: its direction, W or R; its kind, P (plain), A
// (through Atomics) or D (a DataView); and its bytes, 1 or 2.

const { Failure } = require('../lines.js');

const ENDS = { Rfe: 'WR', Fre: 'RW', Coe: 'WW' };
const ATOM = '([PAD])([bh]?)';
const WORD = new RegExp(`^(?:(Pod|Pos)([WR])([WR])|(Rfe|Fre|Coe|Wse))(?:${ATOM}${ATOM})?$`);

const nameOf = (edge) => edge.slice(0, 3);
const sourceOf = (edge) => edge.slice(3, 6);
const targetOf = (edge) => edge.slice(6);
const directionOf = (access) => access[0];
const kindOf = (access) => access[1];
const sizeOf = (access) => Number(access[2]);
const isOrder = (edge) => edge.startsWith('Po');

// A kind and a size, as they stand in an access, of the words for them.
const atomOf = (kind, size) => kind + (size === 'h' ? 2 : 1);

// The name of the edge that a word names, and its accesses, of which the direction alone is known where the word doesn't say more.
function edgeOf(word) {
  const [, order, from, to, between, ...atoms] = WORD.exec(word) ?? [];
  if (!order && !between) {
    throw new Failure(1, `${word} is no edge: those are Pod and Pos with WW, WR, RW or RR, Rfe, Fre and Coe, and behind each perhaps the `
      + 'kinds of its two accesses, as in PodWWPA and RfeAhAh');
  }
  const name = order ?? (between === 'Wse' ? 'Coe' : between);
  const [source, target] = order ? [from, to] : ENDS[name];
  const [one, other] = atoms[0] ? [atomOf(atoms[0], atoms[1]), atomOf(atoms[2], atoms[3])] : ['', ''];
  return { name, source: source + one, target: target + other };
}

// The kind and size of an access, as a word has them.
const atom = (access) => kindOf(access) + (sizeOf(access) === 2 ? 'h' : '');

// The word of an edge; plain bytes aren't told.
function wordOf(edge) {
  const ends = isOrder(edge) ? edge[3] + edge[6] : '';
  const atoms = atom(sourceOf(edge)) + atom(targetOf(edge));
  return nameOf(edge) + ends + (atoms === 'PP' ? '' : atoms);
}

module.exports = { ATOM, atom, atomOf, directionOf, edgeOf, isOrder, kindOf, nameOf, sizeOf, sourceOf, targetOf, wordOf };
