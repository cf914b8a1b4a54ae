'use strict';
// Every interleaving of the agents: each access takes effect at once, and leads from one state of the agents and of memory to the next.
// Agents that wait stand in a queue, as the standard has it. From these states come data races (two agents stand before accesses that
// conflict), and waits and loops that nothing ends; docs/JAVASCRIPT.md has the rules. Values that a read isn't known to have are grown on
// the way, since an interleaving is a valid execution.

const { byteOf, isRead, isSameRange, keyOf, overlaps, writtenBy } = require('./run.js');

const MOST_STATES = 150000;

const readOf = ({ agent, event }) => `${agent} ${keyOf(event)} ${event.sc}`;
const placeIn = (at) => (at ? `${at.file}:${at.line}` : '');

// Accesses of two agents that are in a data race where one of them comes right behind the other.
const conflict = (a, b) => overlaps(a.event, b.event) && (a.writes || b.writes)
  && !(a.event.sc && b.event.sc && isSameRange(a.event, b.event));

// Where the agent at a node waits to be notified: {cell, at, isTimed}, or null.
function sleepAt({ event, leaf }) {
  if (leaf) return leaf.idle?.sleeps ?? null;
  return event.op === 'wake' ? { cell: event.first, at: event.at, isTimed: event.isTimed } : null;
}

class State {
  // `nodes` are where the agents stand, `memory` the bytes that are read, `waiting` agents in a queue, `woken` those that were notified.
  constructor({ nodes, memory, waiting, woken }, before = null, move = null) {
    Object.assign(this, { nodes, memory, waiting, woken, before, move });
  }

  // The moves from the beginning: {agent, node, got}.
  moves() {
    const moves = [];
    for (let state = this; state.move; state = state.before) moves.push(state.move);
    return moves.reverse();
  }
}

class Interleavings {
  // `see` is called where an agent was found to go a longer way: it refuses what is too long.
  constructor({ list, setting }, see = () => undefined) {
    Object.assign(this, { see, list, setting, lengths: list.map(() => 0), numbers: new Map(), seen: new Set(), states: [], first: [],
      places: new Map(), isWhole: true, races: new Map(), hangs: new Map(), ended: new Map(), leaves: new Map(), together: new Set(),
      parents: new Map() });
  }

  // The place of a byte among those that were accessed; all that is not memory begins with 0.
  place(block, byte) {
    const key = `${block} ${byte}`;
    if (!this.places.has(key)) {
      this.places.set(key, this.first.length);
      this.first.push(/^block/.test(block) ? this.setting.initial(block, byte) : 0);
    }
    return this.places.get(key);
  }

  load(memory, { block, first, size }) {
    let value = 0;
    for (let byte = first + size - 1; byte >= first; byte -= 1) {
      const place = this.place(block, byte);
      value = value * 256 + (memory[place] ?? this.first[place]);
    }
    return value;
  }

  store(memory, { block, first, size }, value) {
    const made = memory.slice();
    for (let byte = 0; byte < size; byte += 1) {
      const place = this.place(block, first + byte);
      for (let other = made.length; other < place; other += 1) made.push(this.first[other]);
      made[place] = byteOf(value, byte);
    }
    return made;
  }

  numberOf(node) {
    if (!this.numbers.has(node)) this.numbers.set(node, this.numbers.size);
    return this.numbers.get(node);
  }

  // A state that wasn't seen is one to go on from. Bytes that were never written stand for what they have from the beginning.
  add(state) {
    const memory = state.memory.slice();
    while (memory.length && memory[memory.length - 1] === this.first[memory.length - 1]) memory.pop();
    const key = `${state.nodes.map((node) => this.numberOf(node))}|${memory}|${state.waiting}|${state.woken}`;
    if (this.seen.has(key)) return;
    this.seen.add(key);
    this.states.push(state);
  }

  // Goes through all states, up to so many; those that are to have no data race up to the first one.
  go({ most = MOST_STATES, isRaceFree = false } = {}) {
    this.settle(new State({ nodes: this.list.map(({ root }) => root), memory: [], waiting: [], woken: [] }), 0, true);
    for (let place = 0; place < this.states.length; place += 1) {
      if (place >= most || (isRaceFree && this.races.size)) {
        this.isWhole = false;
        break;
      }
      this.from(this.states[place]);
      this.states[place] = null;
    }
    return this;
  }

  get isRaceFree() {
    return this.isWhole && this.races.size === 0;
  }

  // Whether two agents stand before such reads at once: {agent, event}.
  standTogether(one, other) {
    return this.together.has(`${readOf(one)} ${readOf(other)}`);
  }

  // An agent chooses at once where nothing decides, and stands in the queue as soon as it is to wait.
  settle(state, agent, isAll = false) {
    const node = state.nodes[agent];
    if (node?.event?.op === 'choice') {
      for (const [got, kid] of node.kids) this.settle(this.moved(state, agent, got, kid), agent, isAll);
    } else if (isAll && agent + 1 < state.nodes.length) this.settle(state, agent + 1, true);
    else {
      if (sleepAt(node) && !state.woken.includes(agent) && !state.waiting.includes(agent)) state.waiting = [...state.waiting, agent];
      this.add(state);
    }
  }

  moved(state, agent, got, kid, changed = {}) {
    if (!this.parents.has(kid)) this.parents.set(kid, { node: state.nodes[agent], got });
    const nodes = state.nodes.slice();
    nodes[agent] = kid;
    return new State({ nodes, memory: state.memory, waiting: state.waiting, woken: state.woken, ...changed }, state,
      { agent, node: state.nodes[agent], got });
  }

  // What an agent would do next, or null where it is at its end or waits: {agent, event, got, writes}.
  next(state, agent) {
    const node = state.nodes[agent];
    if (node.leaf) return null;
    const { event } = node;
    if (event.op === 'wake') return state.woken.includes(agent) ? { agent, node, event, got: 1, writes: false } : null;
    if (!isRead(event.op)) return { agent, node, event, got: undefined, writes: true };
    const got = this.load(state.memory, event);
    if (event.op === 'receive' && got === 0) return null;
    return { agent, node, event, got, writes: writtenBy({ ...event, got }) !== null };
  }

  from(state) {
    const open = state.nodes.map((_, agent) => this.next(state, agent)).filter(Boolean);
    for (const [place, one] of open.entries()) {
      for (const other of open.slice(place + 1)) if (conflict(one, other)) this.race(state, one, other);
    }
    this.stand(state);
    open.forEach((step) => this.step(state, step));
    if (open.length) return;
    if (state.nodes.every(({ leaf }) => leaf && leaf.end !== 'stutter')) this.end(state);
    else this.hang(state);
  }

  stand(state) {
    const reads = state.nodes.map(({ event }, agent) => ({ event, agent })).filter(({ event }) => event && isRead(event.op));
    for (const one of reads) for (const other of reads) if (one !== other) this.together.add(`${readOf(one)} ${readOf(other)}`);
  }

  step(state, { agent, node, event, got }) {
    const kid = node.kids ? this.kidOf(agent, node, got) : node.next;
    if (!kid) {
      this.isWhole = false;
      return;
    }
    const changed = {};
    const written = event.op === 'wake' ? null : writtenBy({ ...event, got });
    if (event.notifies !== undefined) {
      Object.assign(changed, this.notified(state, event));
      changed.nodes[agent] = kid;
    } else if (written !== null) changed.memory = this.store(state.memory, event, written);
    if (event.op === 'wake') changed.woken = state.woken.filter((other) => other !== agent);
    this.settle(this.moved(state, agent, got, kid, changed), agent);
  }

  // The first in the queue are woken. One that waits at the end of a turn that left nothing behind is at the head of its loop then.
  notified(state, event) {
    const first = state.waiting.filter((agent) => sleepAt(state.nodes[agent]).cell === event.first).slice(0, event.notifies);
    const nodes = state.nodes.slice();
    const back = first.filter((agent) => nodes[agent].leaf);
    for (const agent of back) nodes[agent] = this.way(nodes[agent])[nodes[agent].leaf.idle.from].node;
    return { nodes, waiting: state.waiting.filter((agent) => !first.includes(agent)),
      woken: [...state.woken, ...first.filter((agent) => !back.includes(agent))].sort() };
  }

  // The accesses of an agent's way to a node of its tree: {node, got}.
  way(node) {
    const way = [];
    for (let at = this.parents.get(node); at; at = this.parents.get(at.node)) way.push(at);
    return way.reverse();
  }

  kidOf(agent, node, got) {
    if (!node.kids.has(got)) {
      const values = this.way(node).filter((each) => each.node.kids).map((each) => each.got);
      const { events } = this.list[agent].grow([...values, got]);
      if (events.length > this.lengths[agent]) {
        this.lengths[agent] = events.length;
        this.see();
      }
    }
    return node.kids.get(got);
  }

  // Where two agents stand before accesses that conflict. What reads comes second in the example.
  race(state, one, other) {
    const key = [one, other].map(({ event }) => placeIn(event.at)).sort().join(' ');
    if (this.races.has(key)) return;
    const [first, second] = one.writes ? [one, other] : [other, one];
    const memory = this.store(state.memory, first.event, writtenBy({ ...first.event, got: first.got }));
    const got = isRead(second.event.op) ? this.load(memory, second.event) : undefined;
    const moves = [first, { ...second, got }].map(({ agent, node, got: read }) => ({ agent, node, got: read }));
    this.races.set(key, { moves: [...state.moves(), ...moves] });
  }

  end(state) {
    const leaves = state.nodes.map(({ leaf }) => leaf);
    for (const leaf of leaves) if (!this.leaves.has(leaf)) this.leaves.set(leaf, this.leaves.size);
    const key = leaves.map((leaf) => this.leaves.get(leaf)).join();
    if (!this.ended.has(key)) this.ended.set(key, { leaves, state });
  }

  // The outcomes, each as the leaves of its ways and the values that lead there.
  outcomes() {
    const values = (node) => this.way(node).filter((each) => each.node.kids).map(({ got }) => got);
    return [...this.ended.values()].map(({ leaves, state: { nodes } }) =>
      ({ leaves, values: nodes.map(values), isPerhaps: false, isInterleaved: true }));
  }

  // Nothing goes on: some agents wait, or go round and round.
  hang(state) {
    const ends = [];
    for (const [agent, node] of state.nodes.entries()) {
      if (node.leaf && node.leaf.end !== 'stutter') continue;
      const found = this.endless(state, node);
      if (found === null) return;
      ends.push({ agent, ...found });
    }
    const key = ends.map(({ agent, at, how }) => `${agent} ${placeIn(at)} ${how}`).join();
    if (!this.hangs.has(key)) this.hangs.set(key, { ends, state });
  }

  // Where an agent waits, or goes round for ever: its last turn was made of what memory has now. A wait with a limit ends.
  endless(state, node) {
    const sleep = sleepAt(node);
    if (sleep && !(sleep.isTimed && node.event)) return sleep.isTimed ? this.round(state, node) : { at: sleep.at, how: 'waits' };
    if (node.event) return node.event.op === 'receive' ? { at: node.event.at, how: 'listens' } : null;
    return this.round(state, node);
  }

  round(state, node) {
    const turn = this.way(node).slice(node.leaf.idle?.from ?? -1);
    const isSame = ({ node: { event }, got }) => !isRead(event.op) || event.op === 'choice' || event.op === 'wake'
      || this.load(state.memory, event) === got;
    const last = turn[turn.length - 1];
    return last && turn.every(isSame) ? { at: last.node.event.at, how: 'spins' } : null;
  }
}

// Follows the moves: the accesses of each agent, and which of them each byte that is read comes from: null for the beginning.
function traced(trees, moves) {
  const last = new Map();
  const woken = new Map();
  const ways = trees.list.map(() => []);
  const order = [];
  for (const { agent, node: { event }, got } of moves) {
    const written = event.op === 'wake' ? null : writtenBy({ ...event, got });
    const step = { agent, place: ways[agent].length, event, got, written, sources: null };
    if (isRead(event.op) && event.op !== 'choice') {
      step.sources = Array.from({ length: event.size }, (_, byte) =>
        (event.op === 'wake' ? woken.get(event.first) : last.get(`${event.block} ${event.first + byte}`)) ?? null);
    }
    if (event.notifies !== undefined) woken.set(event.first, step);
    else if (written !== null) for (let byte = 0; byte < event.size; byte += 1) last.set(`${event.block} ${event.first + byte}`, step);
    ways[agent].push(step);
    order.push(step);
  }
  return { ways, order };
}

module.exports = { Interleavings, traced };
