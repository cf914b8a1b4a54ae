'use strict';
// Where the bytes that the agents access stand in the block of a text, and what their values are there. docs/JAVASCRIPT.md has the
// rules: initial contents by xor, and a word as one byte.

const limits = require('../../limits.json');
const { lineOf } = require('../code.js');
const { Limit } = require('./refusal.js');
const { isRead, keyOf } = require('./run.js');
const { each } = require('./trees.js');

const BYTE = 256;

// Accesses whose ranges overlap, one after the other, and the bytes that they cover.
class Cluster {
  constructor(event) {
    Object.assign(this, { block: event.block, from: event.first, to: event.first + event.size, ranges: [event], nodes: [], initial: 0,
      form: 'bytes', at: 0 });
  }

  get bytes() {
    return this.form === 'bytes' ? this.to - this.from : 1;
  }

  // All values that a range has in the trees.
  values() {
    const values = new Set([this.initial]);
    for (const { event, kids } of this.nodes) {
      if (event.value !== undefined) values.add(event.value);
      if (event.expected !== undefined) values.add(event.expected);
      kids?.forEach((_, value) => {
        values.add(value);
        if (event.op === 'modify') values.add(event.next(value));
      });
    }
    return [...values];
  }

  // A word whose accesses all have one range is a byte where its values differ from the initial one in one byte alone, or where all
  // its accesses are atomic; its values are numbered then.
  shrink() {
    if (this.ranges.length > 1 || this.to - this.from === 1) return;
    const values = this.values();
    const changed = values.reduce((bits, value) => (bits | (value ^ this.initial)) >>> 0, 0);
    const place = [0, 8, 16, 24].find((shift) => (changed & ~(0xff << shift)) >>> 0 === 0);
    if (place !== undefined) Object.assign(this, { form: 'one byte', place });
    else if (values.length <= BYTE && this.nodes.every(({ event }) => event.sc)) Object.assign(this, { form: 'numbered', numbers: values });
  }
}

class Layout {
  // What nothing reads is left out, but for the events that are kept.
  constructor({ list, setting }, kept = new Set()) {
    this.setting = setting;
    const nodes = [];
    list.forEach(({ root }) => each(root, (node) => nodes.push(node)));
    const all = nodes.filter(({ event }) => event.op !== 'choice');
    this.clusters = clustersOf(all.map(({ event }) => event));
    all.forEach((node) => this.clusterOf(node.event).nodes.push(node));
    this.clusters = this.clusters.filter((cluster) => cluster.nodes.some(({ event }) => isRead(event.op) || kept.has(event)));
    for (const cluster of this.clusters) {
      cluster.initial = this.initial({ block: cluster.block, first: cluster.from, size: Math.min(4, cluster.to - cluster.from) });
      cluster.shrink();
    }
    this.place();
  }

  clusterOf({ block, first }) {
    return this.clusters.find((cluster) => cluster.block === block && cluster.from <= first && first < cluster.to);
  }

  isLeftOut(event) {
    return this.clusterOf(event) === undefined;
  }

  initial({ block, first, size }) {
    let value = 0;
    for (let place = size - 1; place >= 0; place -= 1) value = value * BYTE + this.setting.initial(block, first + place);
    return value;
  }

  // The largest first, each as far from a multiple of four as in its own block.
  place() {
    let at = 0;
    for (const cluster of [...this.clusters].sort((a, b) => b.bytes - a.bytes)) {
      if (cluster.form === 'bytes' && cluster.bytes > 1) while (at % 4 !== cluster.from % 4) at += 1;
      cluster.at = at;
      at += cluster.bytes;
    }
    this.bytes = Math.max(1, at);
    if (at > limits.block) {
      const [{ nodes }] = [...this.clusters].sort((a, b) => b.bytes - a.bytes);
      throw new Limit(`the agents read and write ${at} bytes of shared memory, and ${limits.block} are followed: leave some out, `
        + 'such as these', nodes[0].event.at);
    }
  }

  // The number in the text of a value of an access, and back: undefined where no access has it.
  number(event, value) {
    const cluster = this.clusterOf(event);
    if (cluster.form === 'numbered') return cluster.numbers.indexOf(value);
    const changed = (value ^ this.initial(event)) >>> 0;
    return cluster.form === 'one byte' ? (changed >>> cluster.place) : changed;
  }

  value(event, number) {
    const cluster = this.clusterOf(event);
    if (cluster.form === 'numbered') return cluster.numbers[number];
    return ((cluster.form === 'one byte' ? number << cluster.place : number) ^ this.initial(event)) >>> 0;
  }

  // The access as text, by the method of Atomics that it is like.
  code(event, method, values = []) {
    const cluster = this.clusterOf(event);
    const size = cluster.form === 'bytes' ? event.size : 1;
    const at = cluster.form === 'bytes' ? cluster.at + event.first - cluster.from : cluster.at;
    const numbers = values.map((value) => this.number(event, value));
    const isView = !event.sc && !event.noTear && size > 1;
    return lineOf({ kind: method, register: null, atomic: event.sc, view: isView ? 'DV' : `U${8 * size}`, bits: 8 * size,
      place: isView ? at : at / size, values: numbers });
  }
}

function clustersOf(events) {
  const ranges = [...new Map(events.map((event) => [keyOf(event), event])).values()];
  ranges.sort((a, b) => (a.block === b.block ? a.first - b.first || a.size - b.size : a.block < b.block ? -1 : 1));
  const clusters = [];
  for (const event of ranges) {
    const last = clusters[clusters.length - 1];
    if (last?.block === event.block && event.first < last.to) {
      last.to = Math.max(last.to, event.first + event.size);
      last.ranges.push(event);
    } else clusters.push(new Cluster(event));
  }
  return clusters;
}

module.exports = { Layout };
