'use strict';
// What refuses an execution, and why two events are in a data race, in the words of jslit-why.

const STEPS = { 'agent-order': 'agent-order', 'synchronizes-with': 'synchronizes-with', 'made-before': 'makes its byte' };
const DEEDS = { read: 'reads', write: 'writes', 'read-modify-write': 'reads and writes' };

// A step from an event to a later one.
class Step {
  constructor(before, after, why) {
    Object.assign(this, { before, after, why });
  }

  said() {
    return `${this.before} before ${this.after}: ${this.why}`;
  }

  label() {
    return Object.values(STEPS).includes(this.why) ? this.why : 'before';
  }
}

// `said` comes first, then the `steps`, of which the first so many are `earlier` ones that others rest on, and then the `end`; `reads` are
// pairs of a source and a read that don't go together.
class Reason {
  constructor({ said = [], steps = [], end = [], earlier = 0, reads = [] } = {}) {
    Object.assign(this, { said, steps, end, earlier, reads });
  }

  words() {
    return [...this.said, ...this.steps.map((step, at) => `${at + 1}. ${step.said()}`), ...this.end];
  }
}

const chained = (chain) => chain.map(({ before, after, step }) => new Step(before, after, STEPS[step]));

// The places of the lines that the line at a place is joined of, in the order of their events.
const joined = (lines, place) => (lines[place].reason === 'joined' ? lines[place].lines.flatMap((part) => joined(lines, part)) : [place]);

// The steps of a line that is not joined of others.
function stepsOf({ before, after, reason, chain, read, source }) {
  if (reason === 'happens-before') return chained(chain);
  const [middle, from, by] = reason === 'before-source' ? [before, after, read] : [after, source, before];
  return [new Step(before, after, `${middle} may not stand between ${from} and ${by}`)];
}

// What the forced lines rest on, where that is not of happens-before.
const premisesOf = (lines) => lines
  .flatMap((line) => (['before-source', 'after-read'].includes(line.reason) ? line.lines : []))
  .filter((place) => lines[place].reason !== 'happens-before');

// The steps of the cycle that the last line closes, from its least event on.
function cycleOf(lines, names) {
  const places = joined(lines, lines.length - 1);
  const ranks = places.map((place) => names.indexOf(lines[place].before));
  const first = ranks.indexOf(Math.min(...ranks));
  return [...places.slice(first), ...places.slice(0, first)].flatMap((place) => stepsOf(lines[place]));
}

// The reason that a cycle of steps is.
const around = (steps, earlier = []) => new Reason({
  steps: [...earlier, ...steps], end: [`so ${steps[0].before} before itself`], earlier: earlier.length,
});

function withoutOrder({ derivation }, names) {
  if (derivation === null) return new Reason({ said: ['each order of the events breaks a rule; no pair of events alone shows it'] });
  const premises = premisesOf(derivation).flatMap((place) => joined(derivation, place));
  return around(cycleOf(derivation, names), premises.flatMap((place) => stepsOf(derivation[place])));
}

function incoherent({ read, source, byte, hidden_by: other, chains }) {
  const which = other ? `${other} writes over before the read` : 'comes after it';
  const said = [`${read} reads byte ${byte} from ${source}, which ${which}`];
  return new Reason({ said, steps: chains.flatMap(chained), reads: [[source, read]] });
}

function torn({ read, sources: [one, other] }) {
  const said = [`${read} reads bytes of ${one} and of ${other}, which have its range; none of the three may tear`];
  return new Reason({ said, reads: [[one, read], [other, read]] });
}

// What refuses an execution; a Reason of no words where it is valid.
function reasonOf({ refusal, events }) {
  if (refusal === null) return new Reason();
  if (refusal.clause === 'happens-before') return around(chained(refusal.chains[0]));
  if (refusal.clause === 'coherent-reads') return incoherent(refusal);
  return refusal.clause === 'tear-free-reads' ? torn(refusal) : withoutOrder(refusal, [...events.keys()]);
}

function accessed({ name, kind, first, size }) {
  return `${name} ${DEEDS[kind]} ${size === 1 ? `byte ${first}` : `bytes ${first} to ${first + size - 1}`}`;
}

// The least racing pair, and why it is a data race.
function raceOf(execution) {
  const pair = execution.races[0].map((name) => execution.events.get(name));
  const plain = pair.filter(({ order }) => order !== 'seq-cst').map(({ name }) => name);
  const which = ['both are sequentially consistent, and their ranges overlap without being equal',
    `${plain.join('')} is not sequentially consistent`, 'neither is sequentially consistent'][plain.length];
  return [`data race ${pair[0].name} and ${pair[1].name}`, ...pair.map(accessed), 'neither happens before the other', which];
}

module.exports = { joined, premisesOf, raceOf, reasonOf };
