'use strict';
// The litmus text of a cycle: its agents, the observers of the order of stores, and as its condition the outcome that it tells. The
// stores of a cell write 1, 2 and so on in the order of the cycle's edges, in each of their bytes; a load gets what the last store before
// it along these edges left there, and else 0.

const { lineOf } = require('../code.js');
const { Failure } = require('../lines.js');
const limits = require('../../limits.json');
const { agents, cells, stepsToSee } = require('./cycle.js');
const { directionOf, kindOf, sizeOf, sourceOf, wordOf } = require('./edges.js');
const { cycleName, wordOfName } = require('./families.js');

const NAMES = 'ABCDEFGHIJKLMNOPQRSTUVWXYZ';

const reads = (access) => directionOf(access) === 'R';

// The statement of an access, as jslit-text tells it: a store of the value, or a load into the register.
function statementOf(access, first, value, register) {
  const [bits, isView] = [8 * sizeOf(access), kindOf(access) === 'D'];
  return { ...(reads(access) ? { kind: 'load', register, values: [] } : { kind: 'store', register: null, values: [value] }), bits,
    atomic: kindOf(access) === 'A', view: isView ? 'DV' : `U${bits}`, place: isView ? first : first / sizeOf(access) };
}

const composed = (content) => content.reduce((sum, byte, place) => sum + byte * 256 ** place, 0);

// A cell: what each access of it stores or loads, by its place in the cycle, and what the cell holds after each of its stores.
class Cell {
  constructor(edges, places) {
    this.values = new Map();
    this.contents = [[0, 0]];
    for (const place of places) {
      const access = sourceOf(edges[place]);
      const last = this.contents.at(-1);
      if (reads(access)) this.values.set(place, composed(last.slice(0, sizeOf(access))));
      else {
        const bytes = Array(sizeOf(access)).fill(this.contents.length);
        this.contents.push([...bytes, ...last.slice(bytes.length)]);
        this.values.set(place, composed(bytes));
      }
    }
    this.stores = places.map((place) => sourceOf(edges[place])).filter((access) => !reads(access));
    this.seen = stepsToSee(edges, places).flat();
  }

  // The access by which an observer loads: like the stores, where these are all alike, else plain and of the least size.
  observer() {
    const isAlike = this.stores.every((store) => store === this.stores[0]);
    return `R${isAlike ? kindOf(this.stores[0]) : 'P'}${Math.min(...this.stores.map(sizeOf))}`;
  }

  // What an observer sees, one load after the other.
  observed() {
    const [first, last, size] = [Math.min(...this.seen), Math.max(...this.seen), sizeOf(this.observer())];
    return this.contents.slice(first, last + 1).map((content) => composed(content.slice(0, size)));
  }
}

// The lines of a cycle's test, and the test as jslit-text tells it.
class Writer {
  constructor(edges) {
    Object.assign(this, { edges, lines: [], members: [], agents: [], width: Math.max(...edges.map((edge) => sizeOf(sourceOf(edge)))) });
    this.cells = cells(edges).map((places) => new Cell(edges, places));
    for (const agent of agents(edges)) this.writeAgent(agent.map((place) => [sourceOf(edges[place]), ...this.found(place)]));
    for (const [number, cell] of this.cells.entries()) {
      if (cell.seen.length) this.writeAgent(cell.observed().map((value) => [cell.observer(), number, value]));
    }
  }

  // The number of an access's cell, and its value.
  found(place) {
    const number = this.cells.findIndex(({ values }) => values.has(place));
    return [number, this.cells[number].values.get(place)];
  }

  writeAgent(accesses) {
    const name = NAMES[this.agents.length % NAMES.length];
    const statements = [];
    let register = 0;
    this.agents.push({ name, statements });
    this.lines.push(`agent ${name}`);
    for (const [access, number, value] of accesses) {
      statements.push(statementOf(access, number * this.width, value, register));
      this.lines.push(lineOf(statements.at(-1)));
      if (reads(access)) {
        this.members.push({ agent: name, register, equal: true, number: value });
        register += 1;
      }
    }
    if (register > limits.registers || this.agents.length > limits.agents) {
      const most = `more than ${limits.agents} agents, or more than ${limits.registers} registers of one`;
      throw new Failure(1, `${this.cycle()}: it takes ${most}`);
    }
  }

  cycle() {
    return this.edges.map(wordOf).join(' ');
  }

  test() {
    return { bytes: this.width * this.cells.length, agents: this.agents, condition: { all: this.members } };
  }

  text() {
    const condition = this.members.map(({ agent, register, number }) => `${agent}.r${register} == ${number}`).join(' && ');
    return [`test ${wordOfName(cycleName(this.edges))}`, `bytes ${this.test().bytes}`, ...this.lines, `check ${condition}`, ''].join('\n');
  }
}

module.exports = { Writer };
