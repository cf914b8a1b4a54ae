'use strict';
// What a host gives to a program: agents, workers as Node and browsers have them, test262's agents, console, assert; and what isn't
// followed, each with what to write instead.

const NAME = 28;   // characters of an agent's name, so that a number fits behind it

function nameOf(run, wanted) {
  const plain = wanted.replace(/\W/g, '_').replace(/^(?=\d)/, 'w').slice(0, NAME);
  const taken = new Set(['main', ...run.starts.map(({ name }) => name)]);
  let name = plain;
  for (let number = 2; taken.has(name); number += 1) name = `${plain}_${number}`;
  return name;
}

function start(run, made) {
  if (run.role !== null) run.refuse('an agent that starts agents isn\'t followed: start all of them in main');
  if (run.isLive && run.events.length) run.refuse('an agent is started after the first access of main: start all of them first');
  run.starts.push(made);
  return made;
}

// `agents({ name() { .. }, .. })`: what each returns is its outcome.
function agentsOf(run) {
  let isCalled = false;
  return (given) => {
    if (isCalled) run.refuse('`agents` is called twice: give all agents at once');
    isCalled = true;
    const names = Object.keys(given ?? {});
    if (names.length === 0) run.refuse('`agents` is given no agent: write `agents({ name() { .. }, .. })`');
    for (const name of names) {
      if (typeof given[name] !== 'function') run.refuse(`the agent ${name} is no function`);
      if (!/^[A-Za-z_]\w{0,31}$/.test(name)) run.refuse(`the agent ${name} needs a name of letters, digits and _, with 32 at most`);
    }
    if (run.role !== null) {
      run.isLive = true;
      run.value = run.outcome(given[run.role.name]());
      if (run.woken !== null) run.wake();
      run.end('end');
    }
    const at = run.line();
    for (const name of names) start(run, { name, kind: 'function', handlers: [], at });
    run.isLive = true;
    run.setting.isAlone = true;
  };
}

// Workers of Node and of browsers.
function workerOf(run) {
  return class Worker {
    constructor(file, options = {}) {
      if (options.eval) run.refuse('a worker from a text isn\'t followed: give its file as a further FILE');
      const base = String(file?.href ?? file).replace(/[?#].*$/, '').replace(/\/+$/, '').split('/').pop();
      const data = run.data(options.workerData);
      this.started = start(run,
        { name: nameOf(run, base.replace(/\.\w+$/, '')), kind: 'file', file: base, data, messages: [], handlers: [], at: run.line() });
      if (options.workerData !== undefined) run.isLive = true;
    }
    postMessage(value) {
      if (run.events.length) run.refuse('a message to an agent after the first access of main isn\'t followed: send it before');
      this.started.messages.push(run.data(value));
      run.isLive = true;
    }
    listen(what, act, isRaw) {
      if (what === 'error' || what === 'messageerror' || what === 'online') return this;
      if (what !== 'message' && what !== 'exit') run.refuse(`the event ${what} of a worker isn't followed: listen to message or exit`);
      if (run.events.length) run.refuse('a worker that is listened to after the first access of main isn\'t followed: listen before');
      if (typeof act === 'function') this.started.handlers.push({ what, act, isRaw });
      return this;
    }
    on(what, act) { return this.listen(what, act, true); }
    once(what, act) { return what === 'exit' ? this.listen(what, act, true) : run.refuse('`once` isn\'t followed: use `on`'); }
    addEventListener(what, act) { this.listen(what, act, false); }
    set onmessage(act) { this.listen('message', act, false); }
    set onerror(_) { /* a worker that throws ends */ }
    terminate() { run.refuse('`terminate` isn\'t followed: let the worker end'); }
    ref() { return this; }
    unref() { return this; }
  };
}

function threadsOf(run, globals) {
  const isWorker = run.role?.kind === 'file';
  const listeners = [];
  run.deliver = (data) => {
    const event = Object.assign(new run.global.Object(), { data: run.rebuilt(data) });
    if (typeof run.global.onmessage === 'function') run.global.onmessage(event);
    for (const listener of [...listeners]) {
      if (listener.isOnce) listeners.splice(listeners.indexOf(listener), 1);
      listener.act(listener.isRaw ? event.data : event);
    }
  };
  const listen = (isRaw, isOnce) => (what, act) => { if (what === 'message') listeners.push({ act, isRaw, isOnce }); };
  const post = (value) => {
    run.logs.push(run.shown(value));
    run.send(run.data(value));
  };
  if (isWorker) Object.assign(globals, { onmessage: null, postMessage: post, addEventListener: listen(false) });
  const close = () => undefined;
  return {
    Worker: globals.Worker, isMainThread: !isWorker, workerData: null, threadId: isWorker ? run.program.numberOf(run.role) : 0,
    parentPort: isWorker ? { postMessage: post, on: listen(true), once: listen(true, true), close, unref: close } : null,
  };
}

function assertOf(run) {
  const check = (holds, text) => {
    if (holds) return;
    run.failed.push({ at: run.line(), text: text === undefined ? '' : String(text?.message ?? text) });
    run.end('assert');
  };
  const same = (a, b, text) => check(Object.is(a, b), text ?? `${run.shown(a)} is not ${run.shown(b)}`);
  const deep = (a, b, text) =>
    check(JSON.stringify(run.data(a)) === JSON.stringify(run.data(b)), text ?? `${run.shown(a)} is not ${run.shown(b)}`);
  return Object.assign((holds, text) => check(holds, text), {
    ok: check, equal: (a, b, text) => check(a == b, text), notEqual: (a, b, text) => check(a != b, text),
    strictEqual: same, sameValue: same, notStrictEqual: (a, b, text) => check(!Object.is(a, b), text),
      notSameValue: (a, b, text) => check(!Object.is(a, b), text),
    deepEqual: deep, deepStrictEqual: deep, compareArray: deep,
    throws: () => run.refuse('`assert.throws` isn\'t followed: catch the error and look at it'),
  });
}

function consoleOf(run) {
  const log = (...words) => {
    if (run.isLive) run.logs.push(words.map((word) => (typeof word === 'string' ? word : run.shown(word))).join(' ')); };
  const made = Object.fromEntries(['log', 'info', 'debug', 'warn', 'error'].map((name) => [name, log]));
  made.assert = (holds, ...words) => { if (!holds) run.failed.push({ at: run.line(), text: words.map(String).join(' ') }); };
  return made;
}

// The agents of test262's hosts.
function t262Of(run) {
  const share = (block) => {
    if (!run.realm.isBlock(block)) run.refuse('what is broadcast is no shared block: give a SharedArrayBuffer');
    run.starts.forEach((each) => { each.data = run.data(block); });
    run.isLive = true;
  };
  const agent = {
    start: (source) => start(run,
      { name: nameOf(run, `agent${run.starts.length + 1}`), kind: 't262', source: String(source), at: run.line(), handlers: [] })
        && undefined,
    broadcast: share,
    safeBroadcast: (view) => share(view.buffer),
    receiveBroadcast: (act) => { act(run.rebuilt(run.role.data)); },
    report: (value) => { run.logs.push(String(value)); },
    leaving: () => undefined, sleep: () => undefined, trySleep: () => undefined, tryYield: () => undefined,
    monotonicNow: () => run.refuse('`monotonicNow` isn\'t followed: put a number in its place'),
    timeouts: { yield: 100, small: 200, long: 1000, huge: 10000 },
    MAX_TIME_EPSILON: 100,
    waitUntil: (view, index, wanted) => { if (run.global.Atomics.load(view, index) !== wanted) run.end('stutter'); },
    getReport: () => {
      run.program.note(null, 'main is followed up to its first getReport(): compare yourself what the agents report');
      run.end('end');
    },
  };
  agent.getReportAsync = agent.getReport;
  return { agent };
}

// The host's objects; `run` is told what the code does by them.
function globalsOf(run) {
  const no = (what, instead) => () => run.refuse(`${what} isn't followed: ${instead}`);
  const timer = (name) => no(`\`${name}\``, 'call at once what it would call, or leave it out');
  const globals = {
    agents: agentsOf(run), Worker: workerOf(run), assert: assertOf(run), console: consoleOf(run), $262: t262Of(run),
    performance: { now: no('`performance.now`', 'put a number in its place') },
    crypto: { getRandomValues: no('`crypto`', 'put a number in the place of each') },
    structuredClone: (value) => run.rebuilt(run.data(value)), close: () => undefined,
    URL: class { constructor(text) { this.href = String(text); } },
    __filename: run.role?.file ?? run.program.main, __dirname: '.',
  };
  for (const name of ['setTimeout', 'setInterval', 'setImmediate', 'requestAnimationFrame', 'queueMicrotask']) globals[name] = timer(name);
  for (const name of ['fetch', 'importScripts', 'XMLHttpRequest', 'WebSocket', 'EventSource']) {
    globals[name] = function refused() { no(`\`${name}\``, 'put what the agents need of it into this file')(); };
  }
  const date = no('`Date`', 'put a number in its place');
  globals.Date = Object.assign(function Date() { date(); }, { now: date, parse: date, UTC: date });
  const threads = threadsOf(run, globals);
  globals.require = (name) => {
    if (/^(node:)?worker_threads$/.test(name)) {
      if (run.role?.kind === 'file') threads.workerData = run.role.data.type === 'undefined' ? null : run.rebuilt(run.role.data);
      return threads;
    }
    if (/^(node:)?assert(\/strict)?$/.test(name)) return globals.assert;
    return run.refuse(`\`require(${JSON.stringify(name)})\` isn't followed: put what the agents need of it into this file`);
  };
  globals.module = { exports: {} };
  globals.exports = globals.module.exports;
  globals.self = run.global;
  return globals;
}

module.exports = { globalsOf };
