'use strict';
// One run of the main file, or of an agent, access by access: reads get the values that it is given, and where these come to an end
// it pauses at the next read.

const { enter, memoryIn, types, vm } = require('./host.js');
const { globalsOf } = require('./hosts.js');
const { Refusal, busiest } = require('./refusal.js');
const { States } = require('./state.js');
const { NoData, blocksIn, dataOf, shown, valueOf } = require('./values.js');

const PATIENCE = 5000;   // milliseconds that a run may take
const MOST = 24;         // accesses of a run, as the program has it of all agents together
Error.stackTraceLimit = 60;

class Ends extends Error {}   // a run ends here, whatever the code would do next

const isRead = (op) => op !== 'write';
const keyOf = ({ block, first, size }) => `${block} ${first} ${size}`;
const isSameRange = (a, b) => a.first === b.first && a.size === b.size;
const byteOf = (value, place) => Math.floor(value / 256 ** place) % 256;
const overlaps = (a, b) => a.block === b.block && a.first < b.first + b.size && b.first < a.first + a.size;

// Where the innermost code of the user's files stands in a stack, or null; what `Function` made stands in no file.
function placeIn(stack) {
  const found = /user:(?!.*<anonymous>)(.*?):(\d+):(\d+)/.exec(stack);
  return found && { file: found[1], line: Number(found[2]), column: Number(found[3]) };
}

// What an access that was made writes, or null.
function writtenBy({ op, value, expected, next, got }) {
  if (!isRead(op) || op === 'exchange') return value;
  if (op === 'cas') return got === expected ? value : null;
  return op === 'modify' ? next(got) : null;
}

let current = null;   // the run that is on: one at a time
const HOST = {
  access: (access) => current.access(access),
  isLive: () => current.isLive,
  refuse: (text) => current.refuse(text),
  choose: (count) => current.choose(count),
  sleep: (at) => current.sleep({ ...at, block: current.blockName(at.block) }),
  notify: (at, count) => current.notify({ ...at, block: current.blockName(at.block) }, count),
};

// A realm with shared memory in it, whose accesses go to the run that is on.
class Room {
  constructor() {
    this.context = vm.createContext();
    this.global = vm.runInContext('globalThis', this.context);
    this.isKept = false;   // whether the code is run in a function, so that another run may follow
    this.realm = memoryIn(this.context, HOST);
  }

  begin(run) {
    current = run;
    enter(this.context, run.role?.name ?? 'main');
    this.realm.reset();
  }
}

class Run {
  // `role` is null for the main file, or what has started the agent. `setting` has `cell` (numbers for what isn't memory), `mixed`
  // (bytes that aren't only accessed by atomics of one range), and perhaps `most`, `allTurns`.
  // `room` is a realm that earlier runs have used, or undefined: a new one is made then.
  constructor(program, role, values, setting, room = new Room()) {
    Object.assign(this, { program, role, values, setting, room });
    this.isLive = role !== null && role.kind !== 'function';
    this.events = [];
    this.given = 0;
    this.starts = [];
    this.logs = [];
    this.failed = [];
    this.writes = 0;
    this.same = 0;         // writes of what was read, where that may matter
    this.relied = new Set();
    this.woken = null;
    this.wakes = new Map();
    this.isPerhaps = false;
    this.sent = 0;
    this.ended = null;
    this.idle = null;      // the last turn of a loop that left nothing behind: from which event on, and where it waits at its end
    this.value = undefined;
    this.refused = null;
    this.global = room.global;
    this.realm = room.realm;
    room.begin(this);
  }

  // Where the code stands.
  line() {
    const found = placeIn(new Error().stack);
    return found && { ...found, column: this.role?.kind === 't262' ? null : found.column };
  }

  refuse(text, at = this.line()) {
    this.refused ??= new Refusal(text, at);
    throw this.refused;
  }

  end(how) {
    this.ended ??= how;
    throw new Ends(how);
  }

  access(access) {
    if (this.refused) throw this.refused;
    if (this.ended) throw new Ends(this.ended);
    if (this.role === null
      && this.setting.isAlone) this.refuse('main accesses shared memory after it started the agents: do that before, or in an agent');
    this.wake();
    const event = { ...access, at: access.at ?? this.line() };
    if (typeof event.block === 'number') event.block = this.blockName(event.block);
    this.events.push(event);
    if (this.events.length > (this.setting.most ?? MOST)) this.tooLong();
    if (!isRead(event.op)) {
      this.writes += 1;
      return 0;
    }
    if (this.given < this.values.length) event.got = this.values[this.given];
    else if (this.setting.answer) event.got = this.setting.answer(event, this.events);
    else this.end('pause');
    this.given += 1;
    this.count(event);
    return event.got;
  }

  // Blocks that main has made have one name in all agents; those that an agent makes are its own.
  blockName(number) {
    return number < (this.setting.blocks?.length ?? Infinity) ? `block${number}` : `${this.role?.name ?? 'main'} ${number}`;
  }

  // Whether a read-modify-write has changed anything: what writes just what it read may be left out as a read may, but only
  // where all accesses of its bytes are atomic and of one range.
  count(event) {
    const made = writtenBy(event);
    if (made === null) return;
    if (made !== event.got) this.writes += 1;
    else if (this.setting.mixed.has(keyOf(event))) this.same += 1;
    else this.relied.add(keyOf(event));
  }

  tooLong() {
    const { at, times } = busiest(this.events);
    this.refuse(times > 2
      ? `this line accesses shared memory ${times} times and more on one way, and ${MOST} are followed: let its loop make two turns`
      : `an agent makes more than ${MOST} accesses of shared memory on one way: take a part of it`, at);
  }

  // What nothing decides, a number below `count`: each is followed.
  choose(count) {
    return this.access({ op: 'choice', count, block: 'choice', first: 0, size: 1 });
  }

  // An agent that waits is woken by a notification; whether it was is looked at before its next access.
  sleep(at) {
    if (this.woken) this.wake();
    this.woken = { ...at, at: this.line() };
  }

  // Where the agent waits now, or null: {cell, at, isTimed}.
  sleeps() {
    const at = this.woken;
    return at && { cell: this.setting.cell(`notify ${at.block} ${at.first}`), at: at.at, isTimed: at.isTimed };
  }

  wake() {
    const at = this.woken;
    if (at === null) return;
    this.woken = null;
    this.isPerhaps = true;
    const cell = this.setting.cell(`notify ${at.block} ${at.first}`);
    const turn = (this.wakes.get(cell) ?? 0) + 1;
    this.wakes.set(cell, turn);
    const wake = { op: 'wake', turn, sc: true, noTear: true, block: 'notify', first: cell, size: 1, at: at.at, isTimed: at.isTimed };
    if (this.access(wake) === 0) this.end('stutter');
  }

  notify(at, count) {
    const cell = this.setting.cell(`notify ${at.block} ${at.first}`);
    this.access({ op: 'write', sc: true, noTear: true, block: 'notify', first: cell, size: 1, value: 1, notifies: count });
    this.writes -= 1;   // a notification leaves nothing behind for later ones
  }

  // A message to main: a cell of its own.
  send(data) {
    if (!this.setting.hasMail) return;
    const cell = this.setting.cell(`mail ${this.role.name} ${this.sent}`);
    this.sent += 1;
    this.access({ op: 'write', sc: true, noTear: true, block: 'mail', first: cell, size: 1, value: this.program.payload(data),
      isExit: data.type === 'exit' });
  }

  // What is called at each head of a loop, with what gives its variables: a turn that left nothing behind ends the run, since an
  // execution with it is one without it too.
  loop() {
    let seen = new Map();
    let writes = this.writes;
    let kept = 0;
    return (variables) => {
      if (!this.isLive || this.ended || this.setting.allTurns) return;
      if (this.writes !== writes) seen = new Map();
      writes = this.writes;
      const text = this.states.textOf(variables());
      if (text === null) return;
      const key = `${this.logs.length}\n${text}`;
      const before = seen.get(key);
      const events = this.events.length;
      if (before !== undefined && before.events === events) this.refuse('this loop never ends: nothing that it looks at changes');
      if (before !== undefined && before.same !== this.same && kept === 0) kept += 1;
      else if (before !== undefined) {
        if (before.same !== this.same) this.program.note(this.line(),
          'this loop writes what it reads, and other accesses of that are plain: two of its turns are followed');
        this.idle = { from: before.events, sleeps: this.sleeps() };
        this.woken = null;
        this.end('stutter');
      }
      seen.set(key, { events, same: this.same });
    };
  }

  data(value) {
    try {
      return dataOf(value, this.realm);
    } catch (error) {
      if (error instanceof NoData) this.refuse(`${error.message} isn't followed from one agent to another: send plain data`);
      throw error;
    }
  }

  // What an agent gives as its outcome.
  outcome(value) {
    if (typeof value === 'function' || typeof value === 'symbol') return { type: 'undefined' };
    return this.plain(value, 'as an outcome: give its elements, as plain data', this.role?.at ?? null);
  }

  // Data in which no shared memory is.
  plain(value, where, at) {
    let what = 'shared memory';
    try {
      const data = dataOf(value, this.realm);
      if (blocksIn(data).length === 0) return data;
    } catch (error) {
      if (!(error instanceof NoData)) throw error;
      what = error.message;
    }
    return this.refuse(`${what} isn't followed ${where}`, at);
  }

  rebuilt(data) {
    return valueOf(data, this.global, this.realm);
  }

  globals() {
    const globals = globalsOf(this);
    const marks = {
      __loop: () => this.loop(),
      __random: () => this.refuse('random numbers aren\'t followed: put a number in the place of each'),
      __function: (made, closed, name) => {
        this.states.closures.set(made, closed);
        if (name !== null && made.name === '') Object.defineProperty(made, 'name', { value: name, configurable: true });
        return made;
      },
      __methods: (object, closed) => this.closing(object, closed),
      __class: (made, closed, hidden) => {
        this.states.closures.set(made, closed);
        this.states.hidden.push(hidden);
        this.closing(made, closed);
        this.closing(made.prototype, closed);
      },
    };
    Object.assign(this.global, globals, marks);
    this.states = new States(this.global, this.realm,
      [...Object.values(globals), ...Object.values(marks)].filter((each) => typeof each === 'function' || typeof each === 'object'));
    this.global.Math.random = marks.__random;
  }

  closing(object, closed) {
    for (const each of Object.values(Object.getOwnPropertyDescriptors(object))) {
      for (const made of [each.value, each.get, each.set]) {
        if (typeof made === 'function' && !types.isProxy(made) && !this.states.closures.has(made)) this.states.closures.set(made,
          closed);
      }
    }
    return object;
  }

  go() {
    const { role, program } = this;
    this.globals();
    if (role && role.kind !== 'function') this.setting.blocks.forEach((bytes) => this.realm.blockOf(bytes));
    const file = role?.kind === 'file' ? role.file : program.main;
    try {
      const made = role?.kind === 't262' ? program.script(role.at.file, role.source, role.at.line) : program.script(file);
      for (const output of made.outputs) {
        this.global[output] ??= (
          ...words) => { if (this.isLive) this.logs.push(`${output}(${words.map((word) => this.shown(word)).join(', ')})`); };
      }
      (this.room.isKept ? made.closed : made.script).runInContext(this.room.context, { timeout: PATIENCE });
      this.after();
      if (this.woken !== null) this.wake();
      this.ended ??= 'end';
    } catch (error) {
      this.caught(error);
    }
    if (this.refused) throw this.refused;
    return this;
  }

  // What goes on once a file's own code is done: messages, each as the host has them.
  after() {
    const { role } = this;
    if (role?.kind === 'file') {
      role.messages.forEach((data) => this.deliver(data));
      this.send({ type: 'exit' });
    } else if (role === null && this.setting.hasMail) this.receive();
  }

  // Main takes messages of its workers in any order, those of one worker in theirs.
  receive() {
    const open = this.starts.filter((start) => start.handlers.length).map((start) => ({ start, next: 0 }));
    while (open.length) {
      const place = open.length > 1 ? this.choose(open.length) : 0;
      const { start, next } = open[place];
      const cell = this.setting.cell(`mail ${start.name} ${next}`);
      const got = this.access({ op: 'receive', sc: true, noTear: true, block: 'mail', first: cell, size: 1 });
      if (got === 0) this.end('stutter');
      const data = this.program.payloads[got];
      if (data.type === 'exit') open.splice(place, 1);
      else open[place].next += 1;
      for (const { what, act, isRaw } of start.handlers) {
        if (what === (data.type === 'exit' ? 'exit' : 'message')) {
          const value = data.type === 'exit' ? 0 : this.rebuilt(data);
          act(isRaw ? value : Object.assign(new this.global.Object(), { data: value }));
        }
      }
    }
  }

  shown(value) {
    if (typeof value === 'string') return JSON.stringify(value);
    if (typeof value === 'symbol') return String(value);
    return shown(this.plain(value, 'where it is printed: print its elements, as plain data'));
  }

  caught(error) {
    if (this.refused || error instanceof Refusal) {
      this.refused ??= error;
      return;
    }
    if (this.ended || error instanceof Ends) {
      this.ended ??= 'assert';
      return;
    }
    if (error?.code === 'ERR_SCRIPT_EXECUTION_TIMEOUT') {
      this.refused = new Refusal(`${this.role ? `the agent ${this.role.name}` : 'main'} runs for five seconds without an end`, null);
      return;
    }
    const found = placeIn(String(error?.stack));
    const at = found && { file: found.file, line: found.line };
    const text = error !== null && typeof error === 'object' && 'message' in error ? `${error.name}: ${error.message}` : String(error);
    if (/^ReferenceError: \S+ is not defined$/.test(text)) {
      this.refused = new Refusal(`${text.slice(16)} here: put in what the agents need of it`, at);
    } else if (!this.isLive) this.refused = new Refusal(`this throws before any agent is started: ${text}`, at);
    else if (this.role?.handlers?.length) this.refused = new Refusal(
      `a worker that throws isn't followed where main listens to it: catch it there (${text})`, at);
    else {
      this.ended = 'threw';
      this.value = text;
    }
  }
}

module.exports = { Room, Run, byteOf, isRead, isSameRange, keyOf, overlaps, writtenBy };
