'use strict';
// What real workers of Node showed, beside what is told.

const path = require('path');
const { Failure, grouped } = require('../command.js');
const { plain } = require('../lines.js');
const { runOf } = require('../running.js');
const { textOf } = require('./answer.js');
const { shown } = require('./values.js');

const REAL = path.join(__dirname, 'real.js');

// What an agent gave, as an outcome tells it.
function wordsOf({ logs, value, threw }) {
  const end = threw !== undefined ? [`throws ${threw}`] : value.type === 'undefined' ? [] : [shown(value)];
  return [...logs, ...end].join(' | ');
}

// How often each outcome was seen.
function counted({ names, results }) {
  const counts = new Map();
  for (let time = 0; time < results[0].length; time += 1) {
    const text = textOf(names, results.map((each) => wordsOf(each[time])));
    counts.set(text, (counts.get(text) ?? 0) + 1);
  }
  return counts;
}

// Runs the source so many times, in a process with these rights, for so many seconds at most.
async function tried(source, times, patience, rights) {
  if (!/\bagents\s*\(/.test(source)) throw new Failure(1, 'only what is given to `agents({ .. })` is run on real workers');
  const given = Buffer.from(JSON.stringify({ source, times, patience }));
  const { out, said } = await runOf(process.execPath, [...rights, '--no-warnings', REAL], given, { limit: patience * 1000 + 5000 });
  const made = out ? JSON.parse(Buffer.from(out, 'latin1')) : null;
  if (made === null) {
    const line = said.split('\n').find((each) => /Error/.test(each)) ?? said.slice(0, 200);
    throw new Failure(1, `on real workers it didn't come to its end: ${plain(line)}`);
  }
  if (made.results === null) throw new Failure(5, `on real workers it wasn't run ${grouped(times)} times within ${patience} seconds`);
  return counted(made);
}

// {lines, isAllowed}.
function compared(answer, counts, times) {
  const told = answer.outcomes.map(({ text }) => text);
  const outside = [...counts.keys()].filter((text) => !told.includes(text));
  const line = (text, end = '') => `${grouped(counts.get(text) ?? 0).padStart(13)}  ${text || '(nothing is returned or printed)'}${end}`;
  return { isAllowed: outside.length === 0, lines: [`on workers of Node ${process.versions.node}: ${grouped(times)} runs`,
    ...told.map((text) => line(text)), ...outside.map((text) => line(text, '   NOT ALLOWED')),
    `outcomes ${told.length}, seen ${counts.size}, not allowed ${outside.length}`] };
}

module.exports = { compared, tried };
