'use strict';
// Values out of thin air: reads and writes of several agents that justify one another in a ring. Asking the program for what can be read
// so far doesn't find these, so they are looked for here. Wherever an agent reads, it is run with values that it isn't known to read
// there, above all those that the source names; a ring leads from such a read to a write behind it, from there to a read of another
// agent that it may give a byte to, and so back. Any accesses whose ranges share a byte may be in a ring, but one whose every read
// synchronizes, so of atomics of equal range, is a cycle in happens-before.

const { byteOf, isRead, isSameRange, keyOf, overlaps, writtenBy } = require('./run.js');
const { Refusal } = require('./refusal.js');
const { unknownIn } = require('./trees.js');

const MOST_RUNS = 120;         // reads of one agent, with a value each
const MOST_WAYS = 12;          // to go on from there
const MOST_VALUES = 8;        // that are tried at one read
const MOST_STEPS = 200000;    // along rings
const PROBES = [0x5b, 0x6d];   // stand for all that the source doesn't name

const cut = (value, size) => ((Math.trunc(value) % 256 ** size) + 256 ** size) % 256 ** size;
const synchronizes = (write, read) => write.sc && read.sc && isSameRange(write, read);

// Reads as nodes of a graph: {agent, event, value, writes (what its agent writes from there on), path}. `path` are the values that
// lead to a read whose value isn't known there; it is null of the others.
class Reads {
  constructor(program, { list, setting }, space) {
    Object.assign(this, { program, setting, space, nodes: new Map(), isWhole: true, seen: new Map() });
    list.forEach(({ root }, agent) => this.known(root, agent, [], []));
    list.forEach((tree, agent) => this.strange(tree, agent));
  }

  add(agent, event, value, path, id) {
    const key = `${agent} ${id}`;
    if (!this.nodes.has(key)) this.nodes.set(key, { agent, event, value, path, writes: new Map() });
    return this.nodes.get(key);
  }

  write(reads, event, written) {
    for (const { writes } of reads) writes.set(`${keyOf(event)} ${written} ${event.sc}`, { event, written });
  }

  see(event, value) {
    const key = keyOf(event);
    if (!this.seen.has(key)) this.seen.set(key, new Set());
    this.seen.get(key).add(value);
  }

  // The reads of a tree.
  known(node, agent, reads, path) {
    if (!node || node.leaf) return;
    const { event, kids } = node;
    if (!kids) {
      this.see(event, event.value);
      this.write(reads, event, event.value);
      this.known(node.next, agent, reads, path);
    } else kids.forEach((kid, value) => this.knownKid(kid, value, event, agent, reads, path));
  }

  knownKid(kid, value, event, agent, reads, path) {
    const after = [...path, value];
    if (event.op === 'choice') {
      this.known(kid, agent, reads, after);
      return;
    }
    this.see(event, value);
    const more = [...reads, this.add(agent, event, value, null, `${keyOf(event)} ${value} ${event.sc}`)];
    const written = writtenBy({ ...event, got: value });
    if (written !== null) {
      this.see(event, written);
      this.write(more, event, written);
    }
    this.known(kid, agent, more, after);
  }

  // Values for a read: those that the source names, and those that are seen there.
  valuesAt(event, isFirst) {
    if (event.block === 'mail' || event.block === 'notify') return isFirst ? [] : [1];
    const seen = [...(this.seen.get(keyOf(event)) ?? [])];
    const named = [...PROBES, 0, 1, ...this.program.numbers].map((number) => cut(number, event.size));
    return [...new Set(isFirst ? [...named, ...seen] : [...seen, ...named])].slice(0, MOST_VALUES);
  }

  // Runs of an agent that read what isn't known, those with the fewest reads before it first. What they read after it is taken from
  // what is tried there too, in several ways.
  strange(tree, agent) {
    const waiting = unknownIn(tree, (event) => this.valuesAt(event, true)).sort((a, b) => a.length - b.length);
    this.isWhole &&= waiting.length <= MOST_RUNS;
    for (const values of waiting.slice(0, MOST_RUNS)) {
      let ways = 1;
      for (let way = 0; way < Math.min(ways, MOST_WAYS); way += 1) {
        let rest = way;
        const run = this.run(tree, values, (event) => {
          const list = event.op === 'choice' ? Array.from({ length: event.count }, (_, place) => place) : this.valuesAt(event, false);
          const value = list[rest % list.length];
          rest = Math.floor(rest / list.length);
          if (way === 0) ways *= list.length;
          return value;
        });
        if (run !== null) this.take(run, agent, values, values.length - 1);
      }
      this.isWhole &&= ways <= MOST_WAYS;
    }
  }

  run(tree, values, answer) {
    try {
      return tree.try(values, answer);
    } catch (error) {
      if (!(error instanceof Refusal)) throw error;
      return null;   // no execution need come here
    }
  }

  take(run, agent, values, at) {
    const read = run.events.filter(({ op }) => isRead(op))[at];
    if (read?.got === undefined) return;   // a realm that others were in went another way
    const path = values.slice(0, at + 1);
    const node = this.add(agent, read, values[at], path, path.join());
    for (const event of run.events.slice(run.events.indexOf(read))) {
      const written = event.got === undefined && isRead(event.op) ? null : writtenBy(event);
      if (written !== null) this.write([node], event, written);
    }
  }

  // Whether a write may give a read, of this value, a byte that it hasn't from the beginning.
  gives({ event: write, written }, { event: read, value }) {
    let some = false;
    let every = true;
    for (let place = Math.max(write.first, read.first); place < Math.min(write.first + write.size, read.first + read.size); place += 1) {
      const byte = byteOf(value, place - read.first);
      const isGiven = byte === byteOf(written, place - write.first);
      const isInitial = byte === this.setting.initial(read.block, place);
      every &&= isGiven;
      some ||= isGiven && !isInitial;
      if (isSameRange(write, read) && write.noTear && read.noTear && !isGiven && !isInitial) return false;
    }
    return every || some;
  }

  // Whether a ring may be of these reads. Where no interleaving has a data race, what comes before a ring is an interleaving: so its agents
  // stand before these reads at once. Two of the reads don't synchronize, since a ring of which one doesn't is one in happens-before.
  isRing(steps) {
    const open = steps.filter(({ isOpen }) => isOpen);
    return this.space.isRaceFree ? new Set(open.map(({ other }) => other)).size > 1 : open.length > 0;
  }

  standTogether(node, others) {
    return !this.space.isRaceFree || others.every((other) => this.space.standTogether(node, other));
  }

  // The reads of strange values that are in a ring; `gives` says which writes give which reads their value. An execution has one run
  // of each agent, and a ring that comes to an agent twice has a shorter one in it: so each agent is in it once.
  inRings(gives) {
    const nodes = [...this.nodes.values()];
    const leads = (node, other) => {
      const writes = [...node.writes.values()].filter((write) => overlaps(write.event, other.event) && gives(write, other));
      return writes.length ? { other, isOpen: writes.some((write) => !synchronizes(write.event, other.event)) } : null;
    };
    const next = new Map(
      nodes.map((node) => [node, nodes.filter((other) => other.agent !== node.agent).map((other) => leads(node, other)).filter(Boolean)]));
    let steps = 0;
    const comesBack = (node, start, ring) => next.get(node).some((to) => {
      if ((steps += 1) > MOST_STEPS) return false;
      const more = [...ring, to];
      if (to.other === start) return this.isRing(more);
      return ring.every(({ other }) => other.agent !== to.other.agent) && to.other.agent !== start.agent
        && this.standTogether(to.other, [start, ...ring.map(({ other }) => other)]) && comesBack(to.other, start, more);
    });
    const found = nodes.filter((node) => node.path !== null && comesBack(node, node, []));
    this.isWhole &&= steps <= MOST_STEPS;
    return found;
  }
}

// {seeds: [{agent, values}] to grow the trees by, notes}.
function seedsOf(program, trees, space) {
  const reads = new Reads(program, trees, space);
  const found = reads.inRings((write, read) => reads.gives(write, read));
  const isProbe = ({ value, event }) => PROBES.includes(value) && !program.numbers.some((number) => cut(number, event.size) === value);
  const copied = found.filter(isProbe);
  const notes = [];
  const lines = [...new Set(copied.map(({ event: { at } }) => at && `${at.file}:${at.line}`))].filter(Boolean).sort();
  if (lines.length) {
    notes.push(`by the letter of the standard the reads of ${lines.join(', ')} may have any value, out of thin air, `
      + 'since it is copied round; those that the source names were tried');
  } else if (!reads.isWhole && reads.inRings(() => true).length) {
    notes.push('values out of thin air were looked for in part: not all that the source names could be tried at each read');
  }
  const seeds = found.filter((each) => !isProbe(each)).map(({ agent, path }) => ({ agent, values: path }));
  return { seeds, notes, isNone: found.length === 0 && notes.length === 0 };
}

module.exports = { seedsOf };
