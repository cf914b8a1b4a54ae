'use strict';
// Asks about a text. A worker answers, with the proved engine in it, and is ended where its time is up or nobody waits for it any more. One
// question of each name is open at a time: a new one ends the one before.

const { bytesOf, signsOf } = require('../signs.js');

const SECONDS = 10;   // for an answer
const KEPT = ['values', 'execution'];   // what is asked of many small texts, one after the other
const MODULE = bytesOf(atob(engine.module));
const SCRIPT = URL.createObjectURL(new Blob([engine.worker], { type: 'text/javascript' }));

const open = new Map();   // by its name what ends a question
const idle = [];          // workers that wait for another one

// Ends the open question of this name, where there is one.
const stop = (name) => open.get(name)?.();

// Ends the workers that wait.
function rest() {
  for (const worker of idle.splice(0)) worker.terminate();
}

function startedWorker() {
  try {
    return new Worker(SCRIPT);
  } catch {
    return null;
  }
}

// The answer, or null where another question or `stop` ended this one.
function ask(name, kind, given, text) {
  stop(name);
  const worker = idle.pop() ?? startedWorker();
  if (worker === null) return Promise.resolve({ kind: 'failed', said: 'this browser has no workers for the page, which answer' });
  return new Promise((done) => {
    const end = (answer, isKept = false) => {
      clearTimeout(clock);
      open.delete(name);
      if (isKept) idle.push(worker);
      else worker.terminate();
      done(answer);
    };
    const clock = setTimeout(end, SECONDS * 1000, { kind: 'stopped', by: 'time', limit: `${SECONDS} seconds` });
    open.set(name, () => end(null));
    worker.onmessage = ({ data }) => end(data, KEPT.includes(kind));
    worker.onerror = ({ message }) => end({ kind: 'failed', said: `the worker ended: ${message ?? 'it can\u2019t be started'}` });
    worker.postMessage({ module: MODULE, asked: { kind, given, text: signsOf(text) } });
  });
}

module.exports = { ask, rest, stop };
