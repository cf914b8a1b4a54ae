'use strict';
// One way of each agent as a litmus text without branches: each access of the user's code is one line, and the condition asks for the
// values that the ways read. What jslit-why says of it is an execution of these ways, or why there is none.

const { Layout } = require('./layout.js');
const { isRead, writtenBy } = require('./run.js');
const { Part, Writer, linesOf } = require('./texts.js');

// The accesses of a tree on the way that these values lead: {agent, place, event, got, written}, and its end.
function wayOf(tree, agent, values) {
  const steps = [];
  let given = 0;
  let node = tree.root;
  while (node && !node.leaf) {
    const { event, kids } = node;
    if (kids && given === values.length) return { steps, leaf: null };
    const got = kids ? values[given++] : undefined;
    const written = event.op === 'wake' ? null : writtenBy({ ...event, got });
    steps.push({ agent, place: steps.length, event, got, written });
    node = kids ? kids.get(got) : node.next;
  }
  return { steps, leaf: node?.leaf ?? null };
}

// The same as trees of one way each.
function rootOf(steps, taken) {
  return steps.reduceRight((rest, { event, got }) => {
    const node = isRead(event.op) ? { event, kids: new Map([[got, rest]]) } : { event, next: rest };
    if (node.kids) taken.set(node, new Set([got]));
    return node;
  }, { leaf: {} });
}

const BEYOND = { isBeyond: () => false };

class Straight {
  // `ways` are lists of steps, one for each agent; of `kept` events are in the text though nothing reads them.
  constructor(name, { list, setting }, ways, kept = []) {
    const taken = new Map();
    this.ways = ways.map((steps) => steps.filter(({ event }) => event.op !== 'choice'));
    this.trees = { setting, list: this.ways.map((steps, place) => ({ name: list[place].name, root: rootOf(steps, taken) })) };
    this.layout = new Layout(this.trees, new Set(kept));
    this.names = list.map((tree) => tree.name);
    this.events = this.ways.map((steps) => steps.filter(({ event }) => !this.layout.isLeftOut(event)));
    this.text = this.made(name, new Part(taken));
  }

  made(name, part) {
    const codes = this.trees.list.map((tree) => linesOf(new Writer(this.layout, BEYOND, tree, part).code(tree.root)));
    const lines = codes.flatMap((code, place) => [`agent ${this.names[place]}`, ...code]);
    const asked = this.events.flatMap((steps, place) => steps.filter(({ event }) => isRead(event.op))
      .map(({ event, got }, read) => `${this.names[place]}.r${read} == ${this.layout.number(event, got)}`));
    if (asked.length) return `${[`test ${name}`, `bytes ${this.layout.bytes}`, ...lines, `check ${asked.join(' && ')}`].join('\n')}\n`;
    // Where nothing is read a byte of its own is, since a check needs a register.
    const more = this.layout.bytes;
    const last = this.names[this.names.length - 1];
    return `${[`test ${name}`, `bytes ${more + 1}`, ...lines, `r0 = Atomics.load(U8, ${more})`, `check ${last}.r0 == 0`].join('\n')}\n`;
  }

  has(step) {
    return this.events[step.agent].includes(step);
  }

  nameOf(step) {
    return `${this.names[step.agent]}.${this.events[step.agent].indexOf(step)}`;
  }

  // The step that an event of the text is, or null of what makes the block.
  stepOf(name) {
    const [agent, place] = name.split('.');
    return this.events[this.names.indexOf(agent)]?.[Number(place)] ?? null;
  }

  // Where a byte of a step's range stands in the block of the text.
  byteOf(event, byte) {
    const cluster = this.layout.clusterOf(event);
    return cluster.form === 'bytes' ? cluster.at + event.first + byte - cluster.from : cluster.at;
  }

  // Words for jslit-why: the source of each byte of each read, as `steps` have it: a step, or null for the beginning.
  from(steps) {
    const words = steps.filter(({ event }) => isRead(event.op) && event.op !== 'choice').map((step) => {
      const { event } = step;
      const cluster = this.layout.clusterOf(event);
      const bytes = cluster.form === 'bytes' ? step.sources.map((_, byte) => byte) : [cluster.place ? Math.floor(cluster.place / 8) : 0];
      const sources = bytes.map((byte) => (step.sources[byte] ? this.nameOf(step.sources[byte]) : `init[${this.byteOf(event, byte)}]`));
      return `${this.nameOf(step)}=${sources.join(',')}`;
    });
    if (words.length === 0) {
      const last = this.names.length - 1;
      words.push(`${this.names[last]}.${this.events[last].length}=init[${this.layout.bytes}]`);
    }
    return words.join(' ');
  }

  // The execution that jslit-why gave, as the user's steps in memory-order, each with its sources: {from, to, step} of its range, where
  // `step` is null for the beginning. What nothing reads stands behind what its agent did before it.
  ordered({ from, order }) {
    const sources = new Map();
    for (const { read, byte, source } of from) sources.set(read, [...sources.get(read) ?? [], { byte, step: this.stepOf(source) }]);
    const told = new Map();
    const line = [];
    const put = (step) => {
      const rest = this.ways[step.agent];
      let next = rest.indexOf(step) + 1;
      line.push(step);
      for (; next < rest.length && this.layout.isLeftOut(rest[next].event); next += 1) line.push(rest[next]);
    };
    for (const steps of this.ways) {
      for (let place = 0; place < steps.length && this.layout.isLeftOut(steps[place].event); place += 1) line.push(steps[place]);
    }
    for (const name of order) {
      const step = this.stepOf(name);
      if (step) {
        told.set(step, this.runsOf(step, sources.get(name) ?? []));
        put(step);
      }
    }
    return line.map((step) => ({ step, sources: told.get(step) ?? [] }));
  }

  // Bytes in a row that come from one step.
  runsOf({ event }, bytes) {
    const cluster = this.layout.clusterOf(event);
    if (cluster.form !== 'bytes') return bytes.map(({ step }) => ({ from: 0, to: event.size - 1, step }));
    const first = this.byteOf(event, 0);
    const runs = [];
    for (const { byte, step } of [...bytes].sort((a, b) => a.byte - b.byte)) {
      const last = runs[runs.length - 1];
      if (last && last.step === step) last.to = byte - first;
      else runs.push({ from: byte - first, to: byte - first, step });
    }
    return runs;
  }
}

module.exports = { Straight, wayOf };
