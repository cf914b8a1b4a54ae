'use strict';
// What each agent does, by what it reads: a node is {event, kids} of a read, with a kid for each value that is known; {event, next}
// of a write; or {leaf}, what the agent's end is.

const { vm } = require('./host.js');
const { instrument } = require('./instrument.js');
const { Limit, Refusal } = require('./refusal.js');
const limits = require('../../limits.json');
const { Room, Run, byteOf, isRead, keyOf, overlaps, writtenBy } = require('./run.js');

const MOST_RUNS = 1200;

// The files of a program, instrumented, and what is known of all its runs.
class Program {
  constructor(files, main) {
    Object.assign(this, { files, main, scripts: new Map(), notes: new Map(), payloads: [null], roles: [] });
  }

  script(file, source = this.files.get(file), line = 1) {
    const key = `${file}\n${line}\n${source}`;
    if (!this.scripts.has(key)) {
      if (source === undefined) throw new Refusal(`the file ${file} isn't given: give it as a further FILE`);
      this.scripts.set(key, this.instrumented(file, source, line));
    }
    return this.scripts.get(key);
  }

  // The piece of code of an access in a file, or null.
  excerpt({ file, line, column }) {
    return column === null ? null : this.scripts.get(`${file}\n1\n${this.files.get(file)}`)?.excerpts.at(line, column) ?? null;
  }

  instrumented(file, source, line) {
    try {
      const made = instrument(source, file);
      const place = { filename: `user:${file}`, lineOffset: line - 1 };
      return { ...made, script: new vm.Script(made.code, place), closed: new vm.Script(`(function(){${made.code}\n})()`, place) };
    } catch (error) {
      if (error instanceof Refusal && error.at) error.at.line += line - 1;
      throw error;
    }
  }

  // The number of what a message says.
  payload(data) {
    const text = JSON.stringify(data);
    const found = this.payloads.findIndex((each) => each !== null && JSON.stringify(each) === text);
    if (found > 0) return found;
    if (this.payloads.length > 255) throw new Refusal('the agents send more than 255 different messages: send fewer');
    return this.payloads.push(data) - 1;
  }

  numberOf(role) {
    if (!this.roles.includes(role)) this.roles.push(role);
    return this.roles.indexOf(role) + 1;
  }

  note(at, text) {
    this.notes.set(`${at ? `${at.file}:${at.line}: ` : ''}${text}`, true);
  }

  get numbers() {
    return [...new Set([...this.scripts.values()].flatMap(({ numbers }) => numbers))];
  }
}

class Tree {
  constructor(program, role, setting) {
    Object.assign(this, { program, role, setting, root: null, runs: 0 });
  }

  get name() {
    return this.role?.name ?? 'main';
  }

  // Runs the agent with these values for its first reads, and takes over what it does.
  grow(values) {
    const run = new Run(this.program, this.role, values, this.setting).go();
    this.runs += 1;
    if (this.runs > MOST_RUNS) throw new Refusal(`the agent ${this.name} goes more than ${MOST_RUNS} ways: take fewer accesses or values`,
      this.role?.at ?? null);
    run.relied.forEach((key) => this.setting.relied.add(key));
    this.add(run);
    const last = run.events[run.events.length - 1];
    if (run.ended === 'pause' && last.op === 'choice') for (let place = 0; place < last.count; place += 1) this.grow([...values, place]);
    return run;
  }

  // A run that the tree doesn't take over, in a realm that others were in: what they left behind may show. Later reads have what
  // `answer` gives.
  try(values, answer) {
    this.room ??= Object.assign(new Room(), { isKept: true });
    return new Run(this.program, this.role, values, { ...this.setting, answer }, this.room).go();
  }

  add(run) {
    let put = (node) => (this.root ??= node);
    for (const { got, ...event } of run.events) {
      if (event.block !== 'choice') this.setting.see(event);
      const node = put(isRead(event.op) ? { event, kids: new Map() } : { event, next: null });
      put = isRead(event.op) ? (kid) => {
        if (!node.kids.has(got)) node.kids.set(got, kid);
        return node.kids.get(got);
      } : (kid) => (node.next ??= kid);
    }
    if (run.ended === 'pause') return;
    const { ended, value, logs, failed, isPerhaps, wakes, idle } = run;
    put({ leaf: { end: ended, value, logs, failed, isPerhaps, wakes, idle } });
  }
}

// What a read gets behind these writes, {event, written}, one after the other.
function valueAfter(setting, read, writes) {
  const bytes = Array.from({ length: read.size }, (_, place) => setting.initial(read.block, read.first + place));
  for (const { event, written } of writes.filter((write) => write.written !== null && overlaps(write.event, read))) {
    for (let place = 0; place < event.size; place += 1) {
      const at = event.first + place - read.first;
      if (at >= 0 && at < read.size) bytes[at] = byteOf(written, place);
    }
  }
  return bytes.reduceRight((value, byte) => value * 256 + byte, 0);
}

// What a read gets where its agent runs alone.
function aloneIn(setting) {
  return (read, events) => {
    if (['wake', 'receive', 'choice'].includes(read.op)) return 0;
    return valueAfter(setting, read, events.filter((event) => event !== read).map((event) => ({ event, written: writtenBy(event) })));
  };
}

// An agent that is too long alone is so in any case: that is told before anything is asked.
function seeAlone({ program, role, setting, name }) {
  const { events } = new Run(program, role, [], { ...setting, answer: aloneIn(setting) }).go();
  const reads = events.filter(({ op }) => isRead(op) && op !== 'choice');
  if (reads.length > limits.registers) throw tooManyReads(name, reads[limits.registers].at);
}

function tooManyReads(name, at) {
  return new Limit(`the agent ${name} reads more than ${limits.registers} values on one way, one more here: take fewer turns, `
    + 'or a part of it', at);
}

// All accesses that were seen: whether those of a range share bytes with others, or aren't atomic.
class Setting {
  constructor(mixed) {
    Object.assign(this, { mixed, relied: new Set(), ranges: new Map(), cells: [], hasMail: false, blocks: [], isAlone: false });
    this.cell = (name) => (this.cells.includes(name) ? this.cells.indexOf(name) : this.cells.push(name) - 1);
  }

  see(event) {
    const key = keyOf(event);
    const range = this.ranges.get(key) ?? { event, isAtomic: true };
    range.isAtomic &&= event.sc;
    this.ranges.set(key, range);
  }

  // Ranges that were relied on, and that aren't accessed by atomics of this range alone.
  broken() {
    const list = [...this.ranges];
    return [...this.relied].filter((key) => {
      const { event, isAtomic } = this.ranges.get(key);
      return !isAtomic || list.some(([other, { event: by }]) => other !== key && overlaps(by, event));
    });
  }
}

// The trees of a program's agents, each with its first way. The main file is run first, for what it starts.
function plant(program, mixed = new Set()) {
  const setting = new Setting(mixed);
  const scout = new Run(program, null, [], setting);
  try {
    scout.go();
  } catch (error) {
    if (!(error instanceof Refusal) || scout.starts.length === 0 || setting.isAlone || scout.events.length === 0) throw error;
  }
  const { starts } = scout;
  if (starts.length === 0) {
    throw new Refusal('no agent is started: start workers, or end with a line `agents({ name() { .. }, .. })` that calls what each does',
      { file: program.main, line: null });
  }
  setting.hasMail = starts.some(({ handlers }) => handlers.length > 0);
  for (let number = 0; scout.realm.block(number); number += 1) setting.blocks.push(scout.realm.block(number).byteLength);
  if (setting.blocks.length === 0) throw new Refusal('there is no shared memory: make a SharedArrayBuffer',
    { file: program.main, line: null });
  setting.initial = (name, place) => {
    const found = /^block(\d+)$/.exec(name);
    return found ? new Uint8Array(scout.realm.block(Number(found[1])))[place] ?? 0 : 0;
  };
  const list = starts.map((role) => new Tree(program, role, setting));
  if (!setting.isAlone) list.push(new Tree(program, null, setting));
  list.forEach((tree) => tree.grow([]));
  list.forEach(seeAlone);
  return { setting, list: list.filter((tree) => tree.role || !tree.root.leaf || tree.root.leaf.logs.length) };
}

// Each node of a tree, the first first.
function each(node, visit) {
  if (!node || node.leaf) return;
  visit(node);
  if (node.kids) node.kids.forEach((kid) => each(kid, visit));
  else each(node.next, visit);
}

// The values that reads of a tree aren't known to have, each behind those that lead to its read: `valuesAt` has those that may be tried
// at a read, given its event and the node.
function unknownIn(tree, valuesAt) {
  const found = [];
  const visit = (root, path) => {
    let node = root;
    while (node && !node.leaf && !node.kids) node = node.next;
    if (!node || node.leaf) return;
    if (node.event.op !== 'choice') {
      for (const value of valuesAt(node.event, node, path)) if (!node.kids.has(value)) found.push([...path, value]);
    }
    node.kids.forEach((kid, value) => visit(kid, [...path, value]));
  };
  visit(tree.root, []);
  return found;
}

module.exports = { Program, each, plant, tooManyReads, unknownIn, valueAfter };
