'use strict';
// Names of cycles, as the field has them: SB, MP, IRIW, 2+2W; and which of its rotations a cycle is written in.

const crypto = require('crypto');
const limits = require('../../limits.json');
const { agents, least, rotations } = require('./cycle.js');
const { atom, nameOf, sourceOf, targetOf } = require('./edges.js');

// The directions of each agent's accesses say which edges join the agents.
const DIFFERENT_PLACES = {
  SB: 'WR WR', MP: 'WW RR', LB: 'RW RW', R: 'WW WR', S: 'WW RW', '2+2W': 'WW WW',
  WRC: 'W RW RR', RWC: 'W RR WR', WWC: 'W RW RW', 'WRW+WR': 'W RW WR', 'WRR+2W': 'W RR WW', 'WRW+2W': 'W RW WW',
  IRIW: 'W RR W RR', IRRWIW: 'W RR W RW', IRWIW: 'W RW W RW',
  ISA2: 'WW RW RR', 'W+RWC': 'WW RR WR', '3.SB': 'WR WR WR', '3.LB': 'RW RW RW', '3.2W': 'WW WW WW',
  'Z6.0': 'WW RW WR', 'Z6.1': 'WW WW RW', 'Z6.2': 'WW RW RW', 'Z6.3': 'WW WW RR', 'Z6.4': 'WW WR WR', 'Z6.5': 'WW WW WR',
};
const ONE_PLACE = { CoRR: 'W RR', CoRW2: 'W RW' };

// Of each agent's accesses, as a family names them.
const directions = (edges) => agents(edges).map((agent) => agent.map((place) => sourceOf(edges[place])[0]).join('')).join(' ');
const hasOnePlace = (edges) => edges.every((edge) => nameOf(edge) !== 'Pod');

// The name that the field has for the family of a cycle in this rotation.
function named(edges) {
  const table = hasOnePlace(edges) && edges.length === 3 ? ONE_PLACE : DIFFERENT_PLACES;
  return Object.keys(table).find((name) => table[name] === directions(edges));
}

// The rotation that a cycle is written in: as its family has it, else the least.
const normal = (edges) => least(rotations(edges).map((way) => [Number(named(way) === undefined), directions(way), way]))[2];

// The name of a cycle in its normal rotation, without its accesses: in a family that the field has no name for, those of its agents'
// directions.
const family = (edges) => named(edges) ?? directions(edges).replace(/ /g, '+');

// What a name says of an agent: its edges with the kinds of their accesses, or the kind of its one access.
function told(edges, agent) {
  if (agent.length === 1) return atom(sourceOf(edges[agent[0]])).toLowerCase();
  return agent.slice(0, -1).map((place) => edges[place])
    .map((edge) => (nameOf(edge) === 'Pos' ? 'pos' : 'po') + (atom(sourceOf(edge)) + atom(targetOf(edge))).toLowerCase()).join('-');
}

// The name of a cycle in its normal rotation: that of its family alone where it has plain bytes and the family's places.
function cycleName(edges) {
  const other = Object.hasOwn(ONE_PLACE, family(edges)) ? 'Pod' : 'Pos';
  if (edges.every((edge) => sourceOf(edge).endsWith('P1') && nameOf(edge) !== other)) return family(edges);
  return [family(edges), ...agents(edges).map((agent) => told(edges, agent))].join('+');
}

// The name as a word that a test line may have.
function wordOfName(name) {
  const word = name.replace(/\W/g, '_').replace(/^(?=\d)/, '_');
  const digest = () => crypto.createHash('sha256').update(name).digest('hex').slice(0, 8);
  return word.length <= limits.word ? word : `${word.slice(0, limits.word - 9)}_${digest()}`;
}

module.exports = { ONE_PLACE, cycleName, family, hasOnePlace, normal, wordOfName };
