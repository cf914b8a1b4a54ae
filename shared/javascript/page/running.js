'use strict';
// What running.js is in the page's worker: a program is a call of the WebAssembly module, which `open` gives it. What is printed is held
// whole there, and nothing but the end of the worker stops a call.

const { bytesOf } = require('../signs.js');

const PIECE = 1 << 15;  // signs that are made of bytes at a time
let jslit = null;

function open(module) {
  jslit = module;
}

// The words of jslit-why with what they ask for; those that take a word are given it.
const ASKED = {
  '--json': () => ({ json: true }),
  '--unmet': () => ({ question: 'unmet' }),
  '--race': () => ({ question: 'race' }),
  '--from': (rest) => ({ question: 'from', words: rest.shift() }),
  '--condition': (rest) => ({ condition: rest.shift() }),
};

function asked(words) {
  const rest = [...words];
  const whole = {};
  while (rest.length) Object.assign(whole, ASKED[rest.shift()](rest));
  return whole;
}

const CALLS = {
  jslit: (text, [word, turns]) => {
    if (word === '--quick') return jslit.quick(text);
    return word === '--schedule' ? jslit.schedule(text, turns) : jslit.check(text);
  },
  'jslit-text': (text) => jslit.text(text),
  'jslit-why': (text, words) => jslit.why(text, asked(words)),
};

async function runOf(program, words, text, { take = null } = {}) {
  const { status, bytes } = CALLS[program](bytesOf(text), words);
  const run = { status, signal: null, out: '', said: '', late: false, whole: true };
  for (let at = 0; at < bytes.length && run.whole; at += PIECE) {
    const piece = String.fromCharCode(...bytes.subarray(at, at + PIECE));
    if (take === null) run.out += piece;
    else run.whole = take(piece) !== false;
  }
  return run.whole ? run : { ...run, status: null };
}

module.exports = { open, runOf };
