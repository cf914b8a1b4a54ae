'use strict';
// The command jslit-js; docs/JAVASCRIPT.md describes it.

const fs = require('fs');
const path = require('path');
const readline = require('readline');
const { Failure, TOP, run, start, stop } = require('./command.js');
const { plain } = require('./lines.js');
const { Asked } = require('./js/asking.js');
const { drawn } = require('./js/draw.js');
const { compared: seenBeside, tried } = require('./js/engine.js');
const { jsonOf } = require('./js/json.js');
const { briefOf, compared, linesOf } = require('./js/print.js');
const { Sources } = require('./js/sources.js');
const { readOptions } = require('./options.js');
const { strerror } = require('./system.js');

const CHILD = path.join(__dirname, 'js', 'child.js');
const READ = [`${TOP}/shared/javascript/*`, `${TOP}/shared/limits.json`, '/usr/share/nodejs/*', '/usr/lib/nodejs/*'];
const MEMORY = 512;        // MB of the code's heap
const SILENCE = 2000;      // milliseconds before there is a sign of life

// The words of Node by which a process may read what it needs, and nothing else: since Node 20.
function rightsOf(version) {
  const [major, minor] = version.split('.').map(Number);
  if (major < 20) return null;
  const isNamed = major > 23 || (major === 23 && minor >= 5) || (major === 22 && minor >= 13);
  return [isNamed ? '--permission' : '--experimental-permission', ...READ.map((each) => `--allow-fs-read=${each}`)];
}

function read(file) {
  try {
    return fs.readFileSync(file, 'utf8');
  } catch (error) {
    throw new Failure(4, `${plain(file)}: ${strerror(error)}`);
  }
}

// The files by their names without folders, since workers are named so.
function sourcesOf(paths, use) {
  const files = new Map();
  for (const file of paths) {
    const name = path.basename(file);
    if (files.has(name)) throw new Failure(2, `two files have the name ${plain(name)}`);
    files.set(name, read(file));
  }
  return new Sources(files, use === null ? null : { name: path.basename(use), text: read(use) });
}

// Lets the child go on with its code until it has told an answer or a refusal, or has ended otherwise.
async function carriedOut(sources, asked, time, wanted) {
  const rights = rightsOf(process.versions.node);
  if (rights === null) process.stderr.write(
    `jslit-js: Node ${process.versions.node} runs the code with all rights; Node 20 or later with few\n`);
  const { child, ended } = start(process.execPath,
    [...rights ?? [], '--no-warnings', `--max-old-space-size=${MEMORY}`, '--stack-size=900', CHILD], ['pipe', 'pipe', 'pipe']);
  child.stdin.on('error', () => {});
  const tell = (told) => child.stdin.write(`${JSON.stringify(told)}\n`);
  tell({ ...sources.given, wanted });
  let said = '';
  child.stderr.on('data', (piece) => { if (said.length < 1e5) said += piece; });
  let last = null;
  let failure = null;
  const fail = (error) => {
    failure ??= error;
    stop(child, 'SIGKILL');
  };
  readline.createInterface({ input: child.stdout }).on('line', (line) => {
    const told = JSON.parse(line);
    if (told.ask === undefined) last = told;
    else asked.ask(told).then((report) => tell({ ask: told.ask, ...report }), fail);
  });
  const clock = setTimeout(() => fail(new Failure(5, `there is no answer within ${time} seconds (--time)`)), time * 1000);
  const { error, status, signal } = await ended;
  clearTimeout(clock);
  if (failure) throw failure;
  if (error) throw new Failure(70, `node isn't run: ${plain(error.message)}`);
  if (last === null) throw diedOf(said, signal, status);
  return last;
}

function diedOf(said, signal, status) {
  if (/heap out of memory|allocation failed|invalid size/i.test(said)) return new Failure(3,
    `the code ran out of memory: it has ${MEMORY} MB`);
  const line = said.split('\n').find((each) => /^\w*Error\b/.test(each)) ?? '';
  return new Failure(70,
    `the code was not followed to its end: its process ended with ${signal || `status ${status}`}${line ? `: ${plain(line)}` : ''}`);
}

// A line that renews itself where standard error is a terminal.
function signOfLife(asked) {
  if (!process.stderr.isTTY) return () => undefined;
  const began = Date.now();
  const clock = setInterval(() => {
    if (Date.now() - began >= SILENCE) process.stderr.write(
      `\r\x1b[Kjslit-js: ${asked.count} texts asked, ${Math.round((Date.now() - began) / 1000)} seconds`);
  }, 500);
  return () => {
    clearInterval(clock);
    process.stderr.write('\r\x1b[K');
  };
}

async function main(given) {
  const words = readOptions(given, { least: 1 });
  if (words === null) return 0;
  const asked = new Asked({ program: words.program, why: words['why-program'], limit: words.limit });
  const ended = signOfLife(asked);
  const answered = (sources, wanted) => answerOn(sources, asked, words.time, wanted);
  return (words.before === null ? whole(words, answered) : change(words, answered)).finally(ended);
}

// The answer on some files, as the user knows their places.
async function answerOn(sources, asked, time, wanted) {
  const { answer, refusal } = await carriedOut(sources, asked, time, { examples: false, why: false, outcome: null, ...wanted });
  if (refusal) throw new Failure(refusal.status, sources.refusal(refusal));
  answer.notes = answer.notes.map((note) => sources.placed(note));
  return answer;
}

const print = (lines) => process.stdout.write(`${lines.map(plain).join('\n')}\n`);

async function whole(words, answered) {
  const sources = sourcesOf(words.paths, words.use);
  const { why, outcome } = words;
  const answer = await answered(sources, { examples: words.examples || words.json || words.draw, why, outcome });
  if (words.draw) return draw(answer, sources);
  if (words.run !== null) return onWorkers(words, answer, sources);
  if (words.brief) print(briefOf(answer));
  else if (words.json) process.stdout.write(`${JSON.stringify(jsonOf(answer, [...sources.files.keys()]))}\n`);
  else print(linesOf(answer, sources.printer));
  if (words.text && answer.texts) process.stdout.write(answer.texts.map((text) => `\n${text}`).join(''));
  if (answer.named) return answer.named.outcomes.length ? 0 : 1;
  return words.brief || answer.verdict === null || answer.verdict === 'always' ? 0 : 1;
}

// The source on real workers, beside the answer.
async function onWorkers({ run: number, time }, answer, sources) {
  const rights = rightsOf(process.versions.node);
  const source = [...sources.files.values()].join('\n').replace(/^export /gm, '');
  const counts = await tried(source, number, time, rights === null ? [] : [...rights, '--allow-worker']);
  const { isAllowed, lines } = seenBeside(answer, counts, number);
  print(lines);
  return isAllowed ? 0 : 1;
}

function draw(answer, sources) {
  const lines = drawn(answer, sources.printer);
  if (lines === null) throw new Failure(1, 'there is no outcome to draw');
  print(lines);
  return 0;
}

// Whether the outcomes of the files are those of the file before.
async function change(words, answered) {
  const sources = sourcesOf(words.paths, words.use);
  const before = await answered(sourcesOf([words.before], words.use), {});
  const after = await answered(sources, { examples: true });
  const { isAllowed, lines } = compared(before, after, sources.printer);
  print(lines);
  return isAllowed ? 0 : 1;
}

run('jslit-js', main);
