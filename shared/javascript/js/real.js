'use strict';
// The user's own source on real workers of Node: each runs the whole file, again and again, on blocks that all share, and then its own
// agent; between the two all wait for one another. This process is given {source, times, patience} on standard input, and prints {names,
// results (of each agent, of each time {logs, value} or {logs, threw}), or null where it took too long}.

const path = require('path');
const { json } = require('stream/consumers');
const { Worker } = require('worker_threads');

const WORKER = `
const { parentPort, workerData: { source, name, count, control, blocks } } = require('worker_threads');
const { dataOf, shown } = require(${JSON.stringify(path.join(__dirname, 'values.js'))});
const turn = new Int32Array(control);
const results = [];
const said = (word) => (typeof word === 'string' ? word : shown(dataOf(word, null)));
for (let time = 0; time < blocks.length; time += 1) {
  let next = 0;
  let given = null;
  let logs = [];
  const Block = new Proxy(SharedArrayBuffer, { construct: () => blocks[time][next++] });
  const memory = { Memory: class { constructor() { this.buffer = new Block(); } } };
  const log = (...words) => { logs.push(words.map(said).join(' ')); };
  const console = { log, info: log, debug: log, warn: log, error: log, assert() {} };
  new Function('SharedArrayBuffer', 'WebAssembly', 'agents', 'console', source)(Block, memory, (all) => { given = all; }, console);
  logs = [];
  Atomics.add(turn, 0, 1);
  while (Atomics.load(turn, 0) < count * (time + 1));
  try {
    results.push({ value: dataOf(given[name](), null), logs });
  } catch (error) {
    results.push({ threw: error.name + ': ' + error.message, logs });
  }
}
parentPort.postMessage(results);
`;

// What a file makes and starts: the sizes of its blocks, and the names of its agents.
function lookedAt(source) {
  const sizes = [];
  let names = [];
  const Block = new Proxy(SharedArrayBuffer, { construct(Real, [size]) { sizes.push(size); return new Real(size); } });
  const memory = { Memory: class { constructor({ initial }) { this.buffer = new Block(initial * 65536); } } };
  new Function('SharedArrayBuffer', 'WebAssembly', 'agents', 'console', source)(Block, memory, (all) => { names = Object.keys(all); },
    { log() {}, assert() {} });
  return { sizes, names };
}

async function seen({ source, times, patience }) {
  const { sizes, names } = lookedAt(source);
  const blocks = Array.from({ length: times }, () => sizes.map((size) => new SharedArrayBuffer(size)));
  const control = new SharedArrayBuffer(4);
  const workers = names.map((name) =>
    new Worker(WORKER, { eval: true, workerData: { source, name, count: names.length, control, blocks } }));
  const late = new Promise((done) => setTimeout(done, patience * 1000, null).unref());
  const told = (worker) => new Promise((done, failed) => worker.on('message', done).on('error', failed));
  const results = await Promise.race([late, Promise.all(workers.map(told))]);
  await Promise.all(workers.map((worker) => worker.terminate()));
  return { names, results };
}

if (require.main === module) json(process.stdin).then(seen).then((made) => process.stdout.write(JSON.stringify(made)));

module.exports = { seen };
