'use strict';
// What isn't followed: each at its line, with what to write instead; and dangers, where an answer might be wrong.

const test = require('node:test');
const assert = require('node:assert');
const { answered, textsOf } = require('./asking.js');
const { Refusal } = require('../refusal.js');

const HEAD = 'const sab = new SharedArrayBuffer(16); const b = new Uint8Array(sab), i = new Int32Array(sab), d = new DataView(sab);\n';
const agents = (body) => `${HEAD}agents({ A() { ${body} }, B() { return Atomics.load(b, 0); } });`;

// A source that is refused; the line, and words of what is said.
const REFUSED = [
  ['an await', `${HEAD}agents({ async A() { await 1; } });`, 2,
    '`await` isn\'t followed: write what comes after it as a function of its own'],
  ['an asynchronous function', `${HEAD}agents({ A: async () => b[0] });`, 2, 'asynchronous functions aren\'t followed'],
  ['an await of a module', `${HEAD}export const x = 1;\nawait x;`, 3, '`await` isn\'t followed'],
  ['a timer', agents('setTimeout(() => b[0], 1);'), 2, '`setTimeout` isn\'t followed: call at once'],
  ['an interval', agents('setInterval(() => b[0], 1);'), 2, '`setInterval` isn\'t followed'],
  ['a microtask', agents('queueMicrotask(() => b[0]);'), 2, '`queueMicrotask` isn\'t followed'],
  ['a date', agents('b[0] = new Date();'), 2, '`Date` isn\'t followed: put a number'],
  ['the time', agents('b[0] = Date.now();'), 2, '`Date` isn\'t followed: put a number'],
  ['the clock', agents('b[0] = performance.now();'), 2, '`performance.now` isn\'t followed'],
  ['random numbers', agents('b[0] = Math.random() * 2;'), 2, 'random numbers aren\'t followed'],
  ['random bytes', agents('crypto.getRandomValues(b);'), 2, '`crypto` isn\'t followed'],
  ['the network', agents('fetch("/");'), 2, '`fetch` isn\'t followed'],
  ['the network in a function of a text', agents('(() => 0).constructor("return fetch(\'/\')")();'), 2, '`fetch` isn\'t followed'],
  ['eval', agents('eval("b[0] = 1");'), 2, '`eval` isn\'t followed: write its text in its place'],
  ['waitAsync', agents('Atomics.waitAsync(i, 0, 0);'), 2, '`Atomics.waitAsync` isn\'t followed: write what is done'],
  ['atomics of 64 bits', agents('Atomics.add(new BigInt64Array(sab), 0, 1n);'), 2,
    'elements of 64 bits aren\'t followed: use an Int32Array'],
  ['isLockFree', agents('if (Atomics.isLockFree(2)) b[0] = 1;'), 2, '`Atomics.isLockFree` differs from engine to engine'],
  ['how many were woken', agents('return Atomics.notify(i, 0);'), 2, 'how many agents `Atomics.notify` woke isn\'t followed'],
  ['a loop of a thousand turns', agents('for (let k = 0; k < 1000; k += 1)\nAtomics.add(i, 0, 1);'), 3, 'let its loop make two turns'],
  ['many reads', agents('let x = 0;\nfor (let k = 0; k < 9; k += 1) x += b[k];'), 3, 'reads more than 8 values on one way'],
  ['many accesses', `${HEAD}const f = () => { for (let k = 0; k < 10; k += 1)\nb[k] += 1; };\nagents({ A: f });`, 3,
    'reads more than 8 values'],
  ['many accesses together',
    `${HEAD}const f = () => { for (let k = 0; k < 4; k += 1)\nb[k] += 1; };\nagents({ A: f, B: f, C: f, D: f });`, 3,
      'more than 24 accesses together'],
  ['many bytes', 'const sab = new SharedArrayBuffer(36); const b = new Uint8Array(sab), i = new Int32Array(sab);\n'
    + 'const look = (from) => [0, 4, 8].map((k) => b[from + k]);\n'
    + 'agents({ A() { for (let k = 0; k < 9; k += 1) i[k] = 1; }, B: () => look(0), C: () => look(12), D: () => look(24) });',
  3, '36 bytes of shared memory, and 32 are followed'],
  ['many agents', `${HEAD}const f = () => b[0];\nagents({ A: f, B: f, C: f, D: f, E: f, F: f, G: f, H: f, I: f });`, 3,
    '9 agents are started, and 8 are followed'],
  ['no agent', `${HEAD}b[0] = 1;`, null, 'no agent is started'],
  ['an empty list of agents', `${HEAD}agents({});`, 2, 'is given no agent'],
  ['agents twice', `${HEAD}agents({ A() { return b[0]; } });\nagents({ B() { return b[0]; } });`, 3, '`agents` is called twice'],
  ['an agent that is no function', `${HEAD}agents({ A: 1 });`, 2, 'the agent A is no function'],
  ['a name that is none', `${HEAD}agents({ 'a b'() { return b[0]; } });`, 2, 'needs a name of letters'],
  ['no shared memory', 'const b = new Uint8Array(4);\nagents({ A() { return b[0]; } });', null, 'there is no shared memory'],
  ['no JavaScript', `${HEAD}agents({ A() { return b[0] } };`, 2, 'isn\'t read as JavaScript'],
  ['TypeScript', `${HEAD}const x: number = 1;`, 2, 'the types have to go first'],
  ['an agent that never ends', agents('for (;;) { }'), 2, 'never ends'],
  ['an agent that runs and runs', agents('let x = 0; for (;;) { x += 1; }'), null, 'five seconds without an end'],
  ['a name that is nowhere', agents('return helper(b[0]);'), 2, '`helper` is declared nowhere'],
  ['a file that isn\'t given',
    'const { Worker } = require("worker_threads");\nnew Worker("./other.js", { workerData: new SharedArrayBuffer(1) });', null,
      'the file other.js isn\'t given'],
  ['a module of Node', 'require("fs");', 1, '`require("fs")` isn\'t followed'],
  ['an import', 'import fs from "fs";', 1, '`fs` isn\'t read'],
  ['with', `${HEAD}with (b) { length; }`, 2, '`with` isn\'t followed'],
  ['an import within', agents('import("x");'), 2, '`import()` isn\'t followed'],
  ['a slice of a block', agents('sab.slice(0);'), 2, '`slice` of a shared block isn\'t followed'],
  ['a block that grows', 'new SharedArrayBuffer(1, { maxByteLength: 8 });', 1, 'a block that grows isn\'t followed'],
  ['a method of a view', agents('b.sort();'), 2, '`sort` of a view of shared memory isn\'t followed: write its loop out'],
  ['a copy of a view', agents('return new Uint8Array(b);'), 2, 'an array made of a view of shared memory isn\'t followed'],
  ['setting from a view', agents('b.set(b.subarray(1));'), 2, '`set` from another view of shared memory isn\'t followed'],
  ['WebAssembly', agents('new WebAssembly.Module(new Uint8Array(8));'), 2, 'code of WebAssembly isn\'t followed'],
  ['printing a view', agents('console.log(b);'), 2, 'shared memory isn\'t followed where it is printed'],
  ['a view as an outcome', agents('return b;'), 2, 'shared memory isn\'t followed as an outcome'],
  ['a promise as an outcome', agents('return Promise.resolve(1);'), 2, 'a promise or a generator isn\'t followed as an outcome'],
  ['main after the agents', `${agents('b[0] = 1;')}\nb[0] = 2;`, 3, 'main accesses shared memory after it started the agents'],
  ['a worker from a text', 'const { Worker } = require("worker_threads");\nnew Worker("1", { eval: true });', 2,
    'a worker from a text isn\'t followed'],
  ['listening late', 'const { Worker, isMainThread } = require("worker_threads");\nif (isMainThread) { const sab = '
    + 'new SharedArrayBuffer(1); const w = new Worker(__filename, { workerData: sab });\nnew Uint8Array(sab)[0] = 1;\n'
    + 'w.on("message", () => {}); }',
  4, 'after the first access of main isn\'t followed: listen before'],
  ['a message that is a function', 'const { Worker } = require("worker_threads");\nnew Worker(__filename, { workerData: () => 1 });', 2,
    'a function isn\'t followed from one agent to another'],
  ['main that throws', `${HEAD}throw new Error('no');`, 2, 'this throws before any agent is started'],
  ['a check that is none', `${agents('b[0] = 1;')}\n// check: A +`, 3, 'this check can\'t be worked out'],
  ['an asynchronous loop', `${HEAD}export {};\nfor await (const x of []) ;`, 3, '`await` isn\'t followed'],
];

for (const [name, source, line, words] of REFUSED) {
  test(`refused: ${name}`, async () => {
    await assert.rejects(answered(source), (error) => {
      assert.ok(error instanceof Refusal, error.stack);
      assert.ok(error.message.includes(words), error.message);
      assert.equal(error.at?.line ?? null, line, error.message);
      return true;
    });
  });
}

// A source, and its outcomes.
const DANGERS = [
  ['a getter that counts in a loop', 'const o = { n: 0, get up() { this.n += 1; return Atomics.load(b, 0); } };',
    'A() { while (o.n < 2 && o.up === 0); return o.n; }, B() { Atomics.store(b, 0, 1); }', ['A: 1', 'A: 2']],
  ['a private field that counts',
    'class C { #n = 0; up() { this.#n += 1; return Atomics.load(b, 0); } get n() { return this.#n; } } const c = new C();',
      'A() { while (c.n < 2 && c.up() === 0); return c.n; }, B() { Atomics.store(b, 0, 1); }', ['A: 1', 'A: 2']],
  ['a closure that counts',
    'const make = () => { let n = 0; return [() => { n += 1; return Atomics.load(b, 0); }, () => n]; }; const [up, n] = make();',
      'A() { while (n() < 2 && up() === 0); return n(); }, B() { Atomics.store(b, 0, 1); }', ['A: 1', 'A: 2']],
  ['an iterator that goes on', 'const it = [1, 2][Symbol.iterator]();',
    'A() { let k = 0; while (!it.next().done && Atomics.load(b, 0) === 0) k = 0; return k; }, B() { Atomics.store(b, 0, 1); }', ['A: 0']],
  ['a map that grows', 'const m = new Map();',
    'A() { while (m.size < 2 && Atomics.load(b, 0) === 0) m.set(m.size, 0); return m.size; }, B() { Atomics.store(b, 0, 1); }',
      ['A: 0', 'A: 1', 'A: 2']],
  ['a variable of the caller', '',
    'A() { let n = 0; const spin = (f) => { while (f()); }; spin(() => { n += 1; return n < 2 && Atomics.load(b, 0) === 0; }); '
      + 'return n; }, B() { Atomics.store(b, 0, 1); }', ['A: 1', 'A: 2']],
  ['a variable that is set after it is read', '',
    'A() { let last = 9; let now = 9; do { last = now; now = Atomics.load(b, 0); } while (now === 0 && last !== 0); return [last, now]; }, '
      + 'B() { Atomics.store(b, 0, 1); }', ['A: [0, 0]', 'A: [0, 1]', 'A: [9, 1]']],
  ['order of evaluation', 'let n = 0; const f = () => { n += 1; return n; };',
    'A() { b[f()] = f() + Atomics.load(b, 5); return [b[1], b[2]]; }, B() { return b[1]; }', ['A: [2, 0]   B: 0', 'A: [2, 0]   B: 2']],
  ['short circuit', '',
    'A() { return Atomics.load(b, 0) === 1 && Atomics.exchange(b, 1, 1) === 0; }, '
      + 'B() { Atomics.store(b, 0, 1); return Atomics.load(b, 1); }', ['A: false   B: 0', 'A: true   B: 0', 'A: true   B: 1']],
  ['what is stored of NaN, 1.9, -1 and 300', '',
    'A() { b[0] = NaN; b[1] = 1.9; b[2] = -1; b[3] = 300; Atomics.store(b, 4, 1); }, '
      + 'B() { return Atomics.load(b, 4) ? [b[0], b[1], b[2], b[3]] : 0; }', ['B: 0', 'B: [0, 1, 255, 44]']],
  ['signs', 'const s = new Int8Array(sab);', 'A() { Atomics.store(s, 0, 200); }, B() { return Atomics.load(s, 0); }', ['B: -56', 'B: 0']],
  ['what a store returns', '', 'A() { return [Atomics.store(b, 0, 300.7), b[1] = 300]; }, B() { return b[0]; }',
    ['A: [300, 300]   B: 0', 'A: [300, 300]   B: 44']],
  ['indices out of range', '', 'A() { b[99] = 1; b[-1] = 1; b[1.5] = 1; return [b[99], b[-1], b[1.5], b["x"]]; }, B() { return b[0]; }',
    ['A: [undefined, undefined, undefined, undefined]   B: 0']],
  ['a view with an offset', 'const v = new Uint8Array(sab, 4, 2).subarray(1);',
    'A() { v[0] = 1; v[1] = 2; return v.length; }, B() { return [b[5], b[6]]; }', ['A: 1   B: [0, 0]', 'A: 1   B: [1, 0]']],
  ['exceptions of the engine', '',
    'A() { try { Atomics.load(b, 99); } catch (e) { return [e instanceof RangeError, e instanceof Error, e.constructor === RangeError]; } '
      + '}, B() { try { null.x; } catch (e) { return e instanceof TypeError; } }, C() { return b[0]; }',
    ['A: [true, true, true]   B: true   C: 0']],
  ['types of the engine', '',
    'A() { return [b instanceof Uint8Array, ArrayBuffer.isView(b), [1] instanceof Array, sab instanceof SharedArrayBuffer, '
      + 'new Uint8Array(2) instanceof Uint8Array, b.constructor === Uint8Array]; }, B() { return b[0]; }',
    ['A: [true, true, true, true, true, true]   B: 0']],
  ['catching all that is thrown', '',
    'A() { try { if (Atomics.load(b, 0)) throw 1; } catch { return "caught"; } finally { b[1] = 1; } return "not"; }, '
      + 'B() { Atomics.store(b, 0, 1); }', ['A: "caught"', 'A: "not"']],
  ['what isn\'t known isn\'t zero', '',
    'A() { const r = Atomics.load(b, 0); return r === 0 ? "none" : r === 7 ? Atomics.load(b, 1) : "other"; }, '
      + 'B() { Atomics.store(b, 1, 3); Atomics.store(b, 0, 7); }', ['A: "none"', 'A: 3']],
];
for (const [name, setup, body, wanted] of DANGERS) {
  test(`danger: ${name}`, async () => {
    const answer = await answered(`${HEAD}${setup}\nagents({ ${body} });`);
    assert.deepEqual([...textsOf(answer)].sort(), wanted);
  });
}
