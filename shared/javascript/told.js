'use strict';
// What the agents of a run told, and whether the engine failed: any end but by itself with status 0, words of a sanitizer, an
// assertion or a fatal error, and agents that told nothing, or what isn't so.

const { keyOf } = require('./allowed.js');
const { plain } = require('./lines.js');

const isCount = (number, most = Number.MAX_SAFE_INTEGER) => Number.isSafeInteger(number) && number >= 0 && number <= most;

// Whether a line of JSON says what an agent saw: how often each outcome, given by the values of so many registers.
const isSeen = ({ seen, copies, inStep }, registers) => isCount(copies) && isCount(inStep) && Array.isArray(seen)
  && seen.every((entry) => Array.isArray(entry) && entry.length === 2 && isCount(entry[1])
    && Array.isArray(entry[0]) && entry[0].length === registers && entry[0].every((value) => isCount(value, 2 ** 32 - 1)));

// What a line says: `seen` or `wrong`, or null where it isn't an agent's.
function wordOf(line, registers) {
  let word;
  try {
    word = JSON.parse(line);
  } catch {
    return null;
  }
  if (word === null || (word.wrong === undefined && word.seen === undefined)) return null;
  if (word.wrong === undefined ? isSeen(word, registers) : typeof word.wrong === 'string') return word;
  return { wrong: `it printed what no agent says: ${line.slice(0, 200)}` };
}

// Adds up what the agents told.
function addUp(words) {
  const seen = new Map();
  for (const [values, times] of words.flatMap((word) => word.seen)) {
    const key = keyOf(values);
    seen.set(key, { values, times: times + (seen.get(key)?.times ?? 0) });
  }
  const sum = (name) => words.reduce((total, word) => total + word[name], 0);
  return { seen, copies: sum('copies'), inStep: sum('inStep') };
}

function howItEnded({ limit, signal, status }) {
  if (limit !== null) return limit;
  if (signal !== null) return `it ended by ${signal}`;
  return status === 0 ? null : `it ended with status ${status}`;
}

// What is wrong with the tallies of all agents, or null.
function wrongSums({ seen, copies, inStep }) {
  const times = [...seen.values()].reduce((sum, entry) => sum + entry.times, 0);
  if (times !== copies) return `its agents ran ${copies} copies, and counted ${times} outcomes`;
  return inStep > copies ? `its agents ran ${copies} copies, and ${inStep} of them in step` : null;
}

// What a run told, and `failure`, why the engine failed, or null; the first of what is wrong says the most.
function toldBy(end, agents, registers) {
  const told = end.words.map((line) => wordOf(line, registers)).filter(Boolean);
  const wrong = told.find((word) => word.wrong !== undefined);
  const words = told.filter((word) => word.wrong === undefined);
  const sums = addUp(words);
  const fatal = end.stderr.fatal ?? end.stdout.fatal;
  const missing = words.length === agents ? null : `${words.length} of ${agents} agents told what they saw`;
  const faults = [howItEnded(end), wrong?.wrong, missing, fatal && `it printed: ${fatal}`, missing === null ? wrongSums(sums) : null];
  const failure = faults.filter(Boolean).map((fault) => plain(fault).slice(0, 400)).join('; ') || null;
  return { ...sums, failure };
}

module.exports = { toldBy };
