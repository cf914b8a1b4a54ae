'use strict';
// An execution of a test, as jslit-why tells it by --json: what the memory model says of one is that program's to say.

class Execution {
  // `events` by name in the order of their numbers, `sources` and their `bytes` by the name of a read, pairs of names, and what refuses it.
  constructor(told) {
    this.events = new Map(told.events.map((each) => [each.name, each]));
    // Of an attempt's case there are the bytes that are given: these need not be all of a read.
    this.sources = new Map();
    this.bytes = new Map();
    for (const { read, source, byte } of told.from) {
      this.sources.set(read, [...this.sources.get(read) ?? [], source]);
      this.bytes.set(read, [...this.bytes.get(read) ?? [], byte]);
    }
    this.order = told.order ?? [];
    this.refusal = told.refusal;
    this.synchronizes = told.synchronizes_with;
    // In an execution that is not valid no data race counts.
    this.races = told.refusal ? [] : told.races;
  }

  has(before, after) {
    return this.synchronizes.some(([one, other]) => one === before && other === after);
  }
}

// The execution that jslit-why's answer has, or null.
const executionIn = ({ execution }) => (execution ? new Execution(execution) : null);

// The words by which jslit-why is asked of the choice with these sources, by the names of the reads, and values of registers.
const fromWords = (sources, values) => [...[...sources].map(([read, given]) => `${read}=${given.join(',')}`),
  ...[...values].map(([register, value]) => `${register}=${value}`)].join(' ');

module.exports = { Execution, executionIn, fromWords };
