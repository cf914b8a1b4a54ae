'use strict';
// The memory model by brute force, for small programs: every way through the agents' trees, every source of every byte, every
// memory-order, each looked at by the clauses. It shares nothing with texts, layouts or the program.

const { isRead } = require('../run.js');

const at = (event, byte) => event.first <= byte && byte < event.first + event.size;
const isSame = (a, b) => a.block === b.block && a.first === b.first && a.size === b.size;
const byteOf = (value, place) => Math.floor(value / 256 ** place) % 256;

// What an event of a way writes, or null.
function writtenBy({ op, value, expected, next, got }) {
  if (op === 'write' || op === 'exchange') return value;
  if (op === 'cas') return got === expected ? value : null;
  return op === 'modify' ? next(got) : null;
}

// All ways of an agent whose reads have values of the domain, `most` of them at the most: runs that come to an end.
function waysOf(run, domain, most) {
  const ways = [];
  const go = (values) => {
    const made = run(values);
    if (made.ended === 'stutter') return;
    if (made.ended !== 'pause') ways.push(made);
    else if (values.length < most) domain(made.events[made.events.length - 1]).forEach((value) => go([...values, value]));
  };
  go([]);
  return ways;
}

function* products(lists, place = 0, chosen = []) {
  if (place === lists.length) yield chosen;
  else for (const each of lists[place]) yield* products(lists, place + 1, [...chosen, each]);
}

function* orders(count, before, chosen = [], left = new Set(Array.from({ length: count }, (_, k) => k))) {
  if (left.size === 0) yield chosen;
  for (const each of [...left]) {
    if ([...left].some((other) => before(other, each))) continue;
    left.delete(each);
    yield* orders(count, before, [...chosen, each], left);
    left.add(each);
  }
}

class Execution {
  // Events: those that make the bytes first, then the agents', each with `agent` and `place`.
  constructor(ways, initial) {
    const accesses = ways.flatMap(({ events }, agent) =>
      events.map((event, place) => ({ ...event, agent, place, written: writtenBy(event) })));
    const bytes = new Map();
    for (const { block, first, size } of accesses) for (let byte = first; byte < first + size; byte += 1) bytes.set(`${block} ${byte}`,
      [block, byte]);
    const inits = [...bytes.values()].map(([block, first]) =>
      ({ op: 'init', sc: false, noTear: true, block, first, size: 1, written: initial(block, first), agent: -1, place: 0 }));
    this.events = [...inits, ...accesses];
    this.byteReads = this.events.flatMap((event, number) => (event.op !== 'init' && isRead(event.op)
      ? Array.from({ length: event.size }, (_, place) => ({ number, byte: event.first + place })) : []));
  }

  // The sources that give a byte of a read its value.
  candidates({ number, byte }) {
    const read = this.events[number];
    const wanted = byteOf(read.got, byte - read.first);
    return this.events.flatMap((event, other) =>
      (other !== number && event.written !== null && event.block === read.block && at(event, byte)
      && byteOf(event.written, byte - event.first) === wanted ? [other] : []));
  }

  isValid(sources) {
    const { events } = this;
    const count = events.length;
    const reads = this.byteReads.map(({ number, byte }, place) => ({ read: number, byte, from: sources[place] }));
    const hb = events.map((a, i) => events.map((b, j) => i !== j && ((a.agent === b.agent && a.agent >= 0 && a.place < b.place)
      || (a.op === 'init' && b.op !== 'init' && a.block === b.block && at(b, a.first)))));
    const sw = (w, r) => events[w].op !== 'init' && events[w].sc && events[r].sc && isSame(events[w], events[r]);
    for (const { read, from } of reads) if (sw(from, read)) hb[from][read] = true;
    for (let k = 0; k < count; k += 1) for (let i = 0; i < count; i += 1) if (hb[i][k]) for (let j = 0; j < count; j += 1) if (
      hb[k][j]) hb[i][j] = true;
    this.hb = hb;
    if (events.some((_, i) => hb[i][i])) return false;
    for (const { read, byte, from } of reads) {
      if (hb[read][from]) return false;
      if (events.some((v, k) => v.written !== null && k !== from && k !== read && v.block === events[read].block && at(v, byte)
        && hb[from][k] && hb[k][read])) return false;
    }
    for (const { read, from } of reads) {
      for (const other of reads) {
        const whole = (w) => events[w].noTear && events[read].noTear && isSame(events[w], events[read]);
        if (other.read === read && other.from !== from && whole(from) && whole(other.from)) return false;
      }
    }
    const forbidden = [];
    for (const { read: r, from: w } of reads) {
      events.forEach((v, k) => {
        if (k === w || k === r || v.written === null || !v.sc || v.op === 'init') return;
        const first = sw(w, r) && isSame(v, events[r]);
        const second = hb[w][r] && hb[k][r] && events[w].sc && isSame(events[w], v);
        const third = hb[w][r] && hb[w][k] && events[r].sc && isSame(v, events[r]);
        if (first || second || third) forbidden.push([w, r, k]);
      });
    }
    if (forbidden.length === 0) return true;
    for (const order of orders(count, (i, j) => hb[i][j])) {
      const rank = [];
      order.forEach((event, place) => { rank[event] = place; });
      if (forbidden.every(([w, r, v]) => !(rank[w] < rank[v] && rank[v] < rank[r]))) return true;
    }
    return false;
  }

  // Whether sources that are valid have two accesses in a data race, by the happens-before of the last look at them.
  isRacing(sources) {
    const { events, hb } = this;
    const isFrom = (r, w) => this.byteReads.some(({ number }, place) => number === r && sources[place] === w);
    const share = (a, b) => a.block === b.block && a.first < b.first + b.size && b.first < a.first + a.size;
    return events.some((a, i) => events.some((b, j) => i < j && !hb[i][j] && !hb[j][i]
      && ((a.written !== null && b.written !== null && share(a, b)) || isFrom(i, j) || isFrom(j, i))
      && !(a.sc && b.sc && (isSame(a, b) || !share(a, b)))));
  }

  some(holds) {
    const lists = this.byteReads.map((each) => this.candidates(each));
    for (const sources of products(lists)) if (this.isValid(sources) && holds(sources)) return true;
    return false;
  }
}

// The texts of the outcomes that the model allows, of agents given by `runs`; `tell` gives an outcome's text of its ways.
function outcomesOf(runs, domain, initial, tell, most = 6) {
  const found = new Set();
  for (const ways of products(runs.map((run) => waysOf(run, domain, most)))) {
    const text = tell(ways);
    if (!found.has(text) && new Execution(ways, initial).some(() => true)) found.add(text);
  }
  return found;
}

// Whether some execution that the model allows has a data race.
function hasRace(runs, domain, initial, most = 6) {
  for (const ways of products(runs.map((run) => waysOf(run, domain, most)))) {
    const execution = new Execution(ways, initial);
    if (execution.some((sources) => execution.isRacing(sources))) return true;
  }
  return false;
}

// The same of all interleavings of the agents: each is one of the executions that the model allows. Sources are the last writes.
function hasInterleavedRace(runs, initial) {
  let isFound = false;
  const go = (agents, line) => {
    const open = agents.map((_, agent) => agent).filter((agent) => agents[agent].done < agents[agent].last.events.length);
    if (open.length === 0) isFound ||= isRacingInLine(agents.map(({ last }) => last), line, initial);
    for (const agent of open) {
      const { values, done, last } = agents[agent];
      const event = last.events[done];
      const more = isRead(event.op) ? [...values, valueAt(agents, line, event, initial)] : values;
      go(agents.map((each, place) => (place === agent ? { values: more, done: done + 1, last: runs[agent](more) } : each)),
        [...line, { agent, place: done }]);
      if (isFound) return;
    }
  };
  go(runs.map((run) => ({ values: [], done: 0, last: run([]) })), []);
  return isFound;
}

// Where a byte was written last in the line: {agent, place}, or null.
function lastIn(agents, line, block, byte) {
  return line.findLast(({ agent, place }) => {
    const event = agents[agent].last.events[place];
    return event.block === block && at(event, byte) && writtenBy(event) !== null;
  }) ?? null;
}

function valueAt(agents, line, { block, first, size }, initial) {
  let value = 0;
  for (let byte = first + size - 1; byte >= first; byte -= 1) {
    const found = lastIn(agents, line, block, byte);
    const event = found && agents[found.agent].last.events[found.place];
    value = value * 256 + (event ? byteOf(writtenBy(event), byte - event.first) : initial(block, byte));
  }
  return value;
}

function isRacingInLine(ways, line, initial) {
  const execution = new Execution(ways, initial);
  const numberOf = (found, block, byte) => execution.events.findIndex((event) => (
    found ? event.agent === found.agent && event.place === found.place
      : event.op === 'init' && event.block === block && event.first === byte));
  const agents = ways.map((last) => ({ last }));
  const sources = execution.byteReads.map(({ number, byte }) => {
    const { agent, place, block } = execution.events[number];
    const before = line.slice(0, line.findIndex((each) => each.agent === agent && each.place === place));
    return numberOf(lastIn(agents, before, block, byte), block, byte);
  });
  if (!execution.isValid(sources)) throw new Error('an interleaving is no valid execution');
  return execution.isRacing(sources);
}

module.exports = { Execution, hasInterleavedRace, hasRace, outcomesOf, writtenBy };
