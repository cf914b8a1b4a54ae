'use strict';
// Ways that no execution has, for reasons alone. A read has a strange value there where the program never says that it can read it: one
// that stores of other agents write to its bytes, or that is there at first. The trees grow by such values, those ways first that have few.

const { Refusal } = require('./refusal.js');
const { keyOf, overlaps, writtenBy } = require('./run.js');
const { wayOf } = require('./straight.js');
const { each, unknownIn, valueAfter } = require('./trees.js');

const MOST_RUNS = 250;   // of one agent

const readOf = ({ at, ...event }) => `${keyOf(event)} ${at?.file} ${at?.line} ${at?.column}`;
const add = (map, key, values) => map.set(key, new Set([...map.get(key) ?? [], ...values]));

// All that a tree writes: {event, written}.
function writesIn({ root }) {
  const found = new Map();
  const see = (event, written) => written !== null && found.set(`${keyOf(event)} ${written}`, { event, written });
  each(root, ({ event, kids }) => {
    if (!kids) see(event, event.value);
    else if (event.op !== 'wake') kids.forEach((_, got) => see(event, writtenBy({ ...event, got })));
  });
  return [...found.values()];
}

class Strange {
  constructor(trees) {
    Object.assign(this, { ...trees, known: new Map(), usual: trees.list.map(() => new Map()), runs: trees.list.map(() => 0),
      tried: new Set(), isWhole: true });
    this.list.forEach(({ root }, agent) => each(root, (node) => {
      if (!node.kids) return;
      this.known.set(node, new Set(node.kids.keys()));
      add(this.usual[agent], readOf(node.event), node.kids.keys());
    }));
  }

  // Behind a strange value the usual ones are those that the same access has elsewhere; where it has none there, each is usual.
  isStrange(agent, node, value) {
    if (node.event.op === 'choice') return false;
    const known = this.known.get(node) ?? this.usual[agent].get(readOf(node.event));
    return known !== undefined && !known.has(value);
  }

  // How many of these values are strange, which lead an agent from its beginning on.
  count(agent, values) {
    let number = 0;
    let place = 0;
    let node = this.list[agent].root;
    while (node && !node.leaf && place < values.length) {
      if (node.kids && this.isStrange(agent, node, values[place])) number += 1;
      node = node.kids ? node.kids.get(values[place++]) : node.next;
    }
    return number;
  }

  // Whether each read has all values that may be tried there.
  get isNone() {
    return this.runs.every((runs) => runs === 0);
  }

  // What is there where the agent goes on alone, and what others write: nobody asks why an agent doesn't miss its own writes.
  valuesAt(event, own, others) {
    const values = others.filter((write) => overlaps(write.event, event)).map((write) => valueAfter(this.setting, event, [write]));
    return new Set([valueAfter(this.setting, event, own), ...values]);
  }

  // Grows the trees by all ways with so many strange values at most.
  grow(most) {
    const writes = this.list.map(writesIn);
    this.list.forEach((tree, agent) => {
      const others = writes.filter((_, other) => other !== agent).flat();
      const valuesAt = (event, _, path) => this.valuesAt(event, wayOf(tree, agent, path).steps, others);
      const isOpen = (values) => this.count(agent, values) <= most && !this.tried.has(`${agent} ${values}`);
      for (let waiting = unknownIn(tree, valuesAt).filter(isOpen); waiting.length; waiting = unknownIn(tree, valuesAt).filter(isOpen)) {
        for (const values of waiting) if (!this.run(tree, agent, values)) return;
      }
    });
  }

  run(tree, agent, values) {
    this.runs[agent] += 1;
    if (this.runs[agent] > MOST_RUNS) {
      this.isWhole = false;
      return false;
    }
    this.tried.add(`${agent} ${values}`);
    try {
      tree.grow(values);
    } catch (error) {
      if (!(error instanceof Refusal)) throw error;
      this.isWhole = false;   // code that no execution comes to needn't be followed
    }
    return true;
  }
}

module.exports = { Strange };
