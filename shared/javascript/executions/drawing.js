'use strict';
// The picture of an execution: a column for each agent, the init events above, who reads from whom, and what refuses it.

const { Picture } = require('./picture.js');
const { reasonOf } = require('./reasons.js');
const { codeOf } = require('../text/forms.js');

// Neighbours among the init events that the same events read, and between which nothing stands in the memory-order; those in `apart` stand
// alone.
function runsOf(inits, sources, order, apart) {
  const readers = (name) => [...sources].filter(([, given]) => given.includes(name)).map(([reader]) => reader).join(' ');
  const runs = [];
  for (const name of inits) {
    const last = runs.length ? runs[runs.length - 1].at(-1) : null;
    const joins = last !== null && readers(last) === readers(name) && !apart.has(last) && !apart.has(name)
      && (order.length === 0 || order.indexOf(name) === order.indexOf(last) + 1);
    if (joins) runs[runs.length - 1].push(name);
    else runs.push([name]);
  }
  return runs;
}

const span = (words) => (words.length > 2 ? `${words[0]} to ${words[words.length - 1]}` : words.join(', '));

// What the title says of data races.
function toldOf(races) {
  if (races.length > 1) return `${races.length} data races`;
  return races.length ? `data race of ${races[0][0]} and ${races[0][1]}` : 'no data race';
}

const keyOf = (before, after, label) => `${before} ${after} ${label}`;

// The steps by their events and labels: the label with the steps' numbers, and the kind of their edge.
function numberedPairs({ steps, earlier }) {
  const found = new Map();
  steps.forEach((step, at) => {
    const key = keyOf(step.before, step.after, step.label());
    const each = found.get(key) ?? { before: step.before, after: step.after, label: step.label(), places: [] };
    each.places.push(at + 1);
    found.set(key, each);
  });
  return new Map([...found].map(([key, { before, after, label, places }]) => (
    [key, { before, after, text: `${places.join(', ')}: ${label}`, kind: places.at(-1) <= earlier ? 'earlier' : 'step' }])));
}

class Drawing {
  // Of an execution of a text, whose agents are named so: `words` stand below it, after those on what refuses it, and of the data races the
  // pair `least` is marked.
  constructor(title, { text, agents }, execution, { words = [], least = null } = {}) {
    const lines = text.split('\n');
    this.execution = execution;
    this.least = least;
    this.reason = reasonOf(execution);
    this.words = [...this.reason.words(), ...words];
    this.title = execution.refusal ? title : `${title}\n${toldOf(execution.races)}`;
    const events = [...execution.events.values()].filter(({ line }) => line);
    this.codes = new Map(events.map(({ name, line }) => [name, codeOf(lines[line - 1]).trim()]));
    this.steps = numberedPairs(this.reason);
    this.picture = new Picture();
    this.columns = agents.map((agent) => ({ agent, names: [...this.codes.keys()].filter((name) => name.startsWith(`${agent}.`)) }));
    const apart = new Set([...this.steps.values()].flatMap(({ before, after }) => [before, after]));
    this.runs = runsOf([...execution.events.keys()].filter((name) => !this.codes.has(name)), execution.sources, execution.order, apart);
    const groups = [...this.runs, ...this.columns.flatMap(({ names }) => names.map((name) => [name]))];
    this.boxes = new Map(groups.flatMap((names) => names.map((name) => [name, names[0]])));
  }

  // The second line of a box: names, places in the memory-order, and the value read.
  shown(names) {
    const { events, order } = this.execution;
    const { reads, writes } = events.get(names[0]);
    const places = order.length ? span(names.map((name) => `#${order.indexOf(name)}`)) : '';
    const failed = writes === null && (this.codes.get(names[0]) ?? '').includes('compareExchange');
    return [span(names), places, reads === null ? '' : `= ${reads}${failed ? ', fails' : ''}`].filter(Boolean).join(' ');
  }

  place() {
    const { columns, runs, picture } = this;
    const wide = Math.max(...[...this.codes.values()].map((code) => code.length), 10) * 6.6 + 180;
    const middle = (wide * (columns.length - 1)) / 2;
    const step = Math.max(runs.some((names) => names.length > 1) ? 230 : 110, Math.min(wide, (wide * columns.length - 100) / runs.length));
    picture.box('the title', middle, 60, this.title, 12, 'title');
    runs.forEach((names, at) => picture.box(names[0], middle + (at - (runs.length - 1) / 2) * step, 0, this.shown(names), 11, 'init'));
    columns.forEach(({ agent, names }, at) => {
      picture.box(`agent ${agent}`, at * wide, -75, `agent ${agent}`, 11, 'agent');
      names.forEach((name, row) => (
        picture.box(name, at * wide, -125 - 120 * row, `${this.codes.get(name)}\n${this.shown([name])}`, 11, 'event')));
    });
    if (this.words.length) {
      const lowest = -65 - 120 * Math.max(...columns.map(({ names }) => names.length));
      picture.box('the words', middle, lowest - 7 * this.words.length, this.words.join('\n'), 11, 'reason');
    }
  }

  // The step from an event to another with this label, which is drawn once, or undefined.
  taken(before, after, label) {
    const key = keyOf(before, after, label);
    const step = this.steps.get(key);
    this.steps.delete(key);
    return step;
  }

  joinAgents() {
    for (const { names } of this.columns) {
      names.slice(1).forEach((below, at) => {
        const step = this.taken(names[at], below, 'agent-order');
        if (step) this.picture.labelled(names[at], below, step.text, step.kind);
        else this.picture.edge(names[at], below, 'agent-order');
      });
    }
  }

  joinSources() {
    const { sources, bytes } = this.execution;
    for (const [name, given] of sources) {
      for (const box of new Set(given.map((source) => this.boxes.get(source)))) {
        const places = [...given.keys()].filter((at) => this.boxes.get(given[at]) === box);
        const text = (places.length === 1 ? 'byte ' : 'bytes ') + span(places.map((at) => String(bytes.get(name)[at])));
        if (this.execution.has(box, name)) {
          const step = this.taken(box, name, 'synchronizes-with') ?? { text: 'synchronizes-with', kind: 'synchronizes' };
          this.picture.labelled(box, name, `${text}\n${step.text}`, step.kind);
        } else {
          const refused = places.some((at) => this.reason.reads.some(([one, other]) => one === given[at] && other === name));
          this.picture.labelled(box, name, text, refused ? 'refused' : 'reads');
        }
      }
    }
  }

  join() {
    this.joinAgents();
    this.joinSources();
    for (const [one, other] of this.execution.races) {
      const isLeast = this.least !== null && one === this.least[0] && other === this.least[1];
      this.picture.labelled(one, other, isLeast ? 'least racing pair' : 'data race', isLeast ? 'least' : 'race', false);
    }
    for (const { before, after, text, kind } of this.steps.values()) this.picture.labelled(before, after, text, kind);
  }

  // What the picture shows, in words.
  lines() {
    const { sources, order } = this.execution;
    return [...this.title.split('\n'), ...[...sources].map(([read, given]) => `from ${read} ${given.join(' ')}`),
      ...(order.length ? [`order ${order.join(' ')}`] : []), ...this.words];
  }

  laidOut() {
    this.place();
    this.join();
    return this.picture;
  }
}

module.exports = { Drawing };
