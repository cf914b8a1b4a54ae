'use strict';
// A cycle of edges: what it may be, its agents and its cells.

const { Failure } = require('../lines.js');
const { edgeOf, isOrder, nameOf, sourceOf, wordOf } = require('./edges.js');

const PLAIN = 'P1';
const least = (lists) => lists.reduce((one, other) => (`${other}` < `${one}` ? other : one));
const after = (list, place) => list[(place + 1) % list.length];

// The access between two edges: the target of the one, and the source of the other, whose word this is.
function joined(word, before, behind) {
  if (before[0] !== behind[0]) {
    const ends = { W: 'a store', R: 'a load' };
    throw new Failure(1, `${word} begins with ${ends[behind[0]]}, and the edge before it ends with ${ends[before[0]]}`);
  }
  const told = new Set([before, behind].map((each) => each.slice(1)).filter(Boolean));
  if (told.size > 1) throw new Failure(1, `${word} and the edge before it tell two kinds of the access between them`);
  return before[0] + ([...told][0] ?? PLAIN);
}

// The cycle of these words.
function cycleOf(words) {
  const edges = words.map(edgeOf);
  const accesses = edges.map(({ source }, place) => joined(words[place], edges.at(place - 1).target, source));
  return started(edges.map(({ name }, place) => name + accesses[place] + after(accesses, place)));
}

// Why the edges are no cycle of a test, or null.
function faultOf(edges) {
  if (!edges.some(isOrder)) return 'a cycle needs an edge of agent-order: Pod or Pos';
  if (edges.filter((edge) => !isOrder(edge)).length < 2) return 'a cycle needs two edges between agents: Rfe, Fre or Coe';
  return edges.filter((edge) => nameOf(edge) === 'Pod').length === 1 ? "with one edge Pod a cycle doesn't come back to its place" : null;
}

// Those that begin with an agent's first access.
const rotations = (edges) => [...edges.keys()].filter((place) => !isOrder(edges.at(place - 1)))
  .map((place) => [...edges.slice(place), ...edges.slice(0, place)]);

// The cycle, turned on until it begins with an agent's first access.
function started(edges) {
  const fault = faultOf(edges);
  if (fault) throw new Failure(1, `${edges.map(wordOf).join(' ')}: ${fault}`);
  return rotations(edges)[0];
}

// The accesses of each agent, by their places in the cycle.
function agents(edges) {
  const lists = [];
  for (const place of edges.keys()) {
    if (isOrder(edges.at(place - 1))) lists.at(-1).push(place);
    else lists.push([place]);
  }
  return lists;
}

// All places of a cycle from the one behind this on.
const placesFrom = (edges, place) => edges.map((_, step) => (place + 1 + step) % edges.length);

// Of each cell, which is a place in memory, its accesses by their places in the cycle and in the order of the edges between them; in a
// cycle of one cell all of them, from one of its edges Pos on.
function cells(edges) {
  const ends = [...edges.keys()].filter((place) => nameOf(edges[place]) === 'Pod');
  if (ends.length === 0) return [oneCell(edges)];
  const lists = ends.map((end) => {
    const places = placesFrom(edges, end);
    return places.slice(0, places.findIndex((place) => ends.includes(place)) + 1);
  });
  return lists.sort((one, other) => Math.min(...one) - Math.min(...other));
}

// The accesses from that edge Pos on by which the fewest stores have to be seen in order; of several by the least edges.
function oneCell(edges) {
  const ways = [...edges.keys()].filter((place) => nameOf(edges[place]) === 'Pos').map((place) => placesFrom(edges, place));
  const digits = (number) => String(number).padStart(3, '0');
  const rank = (way) => [digits(stepsToSee(edges, way).length), ...way.map((place) => edges[place]), digits(way[0])];
  return least(ways.map((way) => [rank(way), way]))[1];
}

// The pairs of neighbouring stores of a cell, by their numbers from 1, whose order no agent's own order tells.
function stepsToSee(edges, cell) {
  const pairs = [];
  let [isTold, number] = [true, 0];
  for (const [step, place] of cell.entries()) {
    isTold &&= step === 0 || nameOf(edges.at(place - 1)) === 'Pos';
    if (sourceOf(edges[place])[0] === 'W') {
      number += 1;
      if (number > 1 && !isTold) pairs.push([number - 1, number]);
      isTold = true;
    }
  }
  return pairs;
}

module.exports = { agents, cells, cycleOf, faultOf, least, rotations, stepsToSee };
