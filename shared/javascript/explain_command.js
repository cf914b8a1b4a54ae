'use strict';
// The command jslit-explain.

const fs = require('fs');
const path = require('path');
const { parseArgs } = require('util');
const { help, readText, run } = require('./command.js');
const { plain } = require('./lines.js');
const { notesOfReport, reported } = require('./noting.js');
const { TOP, builtProgram, namedProgram, runOf, tellText, testIn } = require('./programs.js');
const { pathOf, strerror } = require('./system.js');
const { MOST, more } = require('./text/faults.js');
const { linesOf } = require('./text/forms.js');
const { advice } = require('./text/refusals.js');

const VALUED = ['workers', 'cut', 'schedule', 'most', 'choice', 'from', 'condition'];
// What is said of words that jslit refuses, where another command is meant: which one.
const INSTEAD = {
  '--race': ['jslit-why --race', 'shows the first data race'], '--races': ['jslit-why --race', 'shows the first data race'],
  '--why': ['jslit-why', 'says why no execution meets the condition'], '--unmet': ['jslit-why --unmet', 'says why none fails it'],
  '--json': ['jslit %s | jslit-json', 'writes a report as JSON'], '--draw': ['jslit-draw', 'draws an execution'],
  '--dot': ['jslit-draw', 'draws an execution'], '--explain': ['jslit-explain', 'says what to write for a line that is refused'],
  '--notes': ['jslit-check --notes', 'says where a text may not mean what one thinks'],
  '--engine': ['jslit-engine', 'runs a test on an engine'],
  '--threads': ['jslit --workers N', 'searches by N workers'], '-j': ['jslit --workers N', 'searches by N workers'],
  '-q': ['jslit --quick', 'answers the verdict, with an example of each class'],
};

// A line for each word that another command or option takes; for several files, and for a report in place of a text, one line.
function adviceOnWords(words) {
  const files = words.filter((word) => !word.startsWith('-'));
  const [file = 'FILE'] = files;
  const told = words.filter((word) => Object.hasOwn(INSTEAD, word.split('=')[0])).map((word) => {
    const [command, does] = INSTEAD[word.split('=')[0]];
    return `\`${command.includes('%s') ? command.replace('%s', file) : `${command} ${file}`}\` ${does}`;
  });
  if (files.length > 1) told.push(`\`jslit-check ${files.join(' ')}\` runs several files, and folders`);
  return [...new Set(told)];
}

const LIMIT = 10000;         // milliseconds until it refuses or begins a report
const LIMIT_OF_NOTES = 2000; // for a report whose examples notes are about
const WIDTH = 100;

const say = (line) => {
  try {
    fs.writeSync(2, `${line}\n`);
  } catch {
    // Nobody takes it.
  }
};
const utf8 = (text) => Buffer.from(text, 'latin1').toString('utf8');

// The places of the files' names among the program's words, and the schedule's text, or null, as the program reads them.
function parsed(words) {
  const options = Object.fromEntries(VALUED.map((name) => [name, { type: 'string' }]));
  const { tokens } = parseArgs({ args: words, options, strict: false, allowPositionals: true, tokens: true });
  const places = tokens.filter(({ kind }) => kind === 'positional').map(({ index }) => index);
  const schedules = tokens.filter(({ name }) => name === 'schedule').map(({ value }) => value ?? '');
  return { places, schedule: schedules.at(-1) ?? null };
}

// The name by which a standard input that is a file can be read anew.
function standardInput() {
  try {
    return fs.fstatSync(0).isFile() ? '/dev/stdin' : null;
  } catch {
    return null;
  }
}

// Whether what a file has is gone once it is read: it may have been read before this was called.
function isReadOnce(name) {
  try {
    const kind = fs.statSync(pathOf(name));
    return kind.isFIFO() || kind.isSocket();
  } catch {
    return false;
  }
}

// The line, cut where it is long, and a caret.
function show(line, column) {
  const start = line.length > WIDTH ? Math.max(0, column - WIDTH / 2) : 0;
  say(`    ${utf8(line.slice(start, start + WIDTH)).replace(/[^\p{L}\p{M}\p{N}\p{P}\p{S} \t]/gu, ' ').trimEnd()}`);
  say(`    ${utf8(line.slice(start, column)).replace(/[^\t]/gu, ' ')}^`);
}

function explain(said, name, text, given) {
  say(`${plain(name)}${given.line ? `:${given.line}` : ''}: ${said}`);
  if (given.column !== null) show(linesOf(text)[given.line - 1], given.column);
  for (const sentence of given.said) say(`  ${sentence}`);
  if (given.write === '') say('  write: nothing in its place');
  if (given.write && given.from !== given.line) say(`  in place of lines ${given.from} and ${given.line}`);
  for (const [place, line] of (given.write ? given.write.split('\n') : []).entries()) say(`  ${place === 0 ? 'write:' : '      '} ${line}`);
}

// Explains the line that the program printed for the text, and then its other faults. `ask` gives what jslit-text says of a text.
async function refusal(said, name, data, schedule, ask) {
  const text = data.toString('latin1');
  const told = await ask(data);
  explain(said, name, text, advice(said, text, told, { schedule }));
  let count = 1;
  for await (const other of more(said, text, told, ask)) {
    count += 1;
    explain(`then ${other.printed}`, name, text, other.advice);
  }
  if (count === MOST) say(`${plain(name)}: these are the first ${count} faults; there may be more`);
}

// Why a file can't be read.
function failed(name) {
  if (name === '-') {
    say('-: standard input is read where no FILE is named: leave the `-` out');
    return;
  }
  try {
    fs.readSync(fs.openSync(pathOf(name), 'r'), Buffer.alloc(1));
  } catch (error) {
    const stored = path.join(TOP, 'litmus', path.basename(name));
    const near = [`${name}.lit`, stored, `${stored}.lit`].find((other) => fs.statSync(other, { throwIfNoEntry: false })?.isFile());
    const meant = error.code === 'EISDIR' ? '; jslit-check runs all tests of a folder'
      : near ? `; did you mean ${plain(path.relative('.', near))}?` : '';
    say(`${plain(name)}: ${strerror(error)}${meant}`);
  }
}

// The text of a file, or null where it can't be read, which is said.
function textOf(name) {
  try {
    return readText(name);
  } catch (error) {
    if (error.status !== 4) throw error;
    failed(name);
    return null;
  }
}

// The status of the program on the text of this name, once it is said what there is to say: of a text that isn't refused only where
// `isTold`.
async function explained(program, words, name, schedule, isTold) {
  const data = textOf(name);
  if (data === null) return 4;
  let printed = '';
  // A report is not waited for: where one begins, nothing is refused.
  const take = (piece) => {
    printed += piece;
    return printed.startsWith('refused ') || 'refused '.startsWith(printed);
  };
  const ended = await runOf(program, words, data, { limit: LIMIT, take });
  if (!ended.whole) ended.status = 0;
  if (ended.status === null) {
    say(`${plain(name)}: not refused within ${LIMIT / 1000} seconds`);
    return 5;
  }
  if (ended.status === 1 && printed.startsWith('refused ')) {
    const text = await builtProgram('jslit-text');
    await refusal(printed.trim(), name, data, schedule, (other) => tellText(text, name, other));
  } else if (ended.status === 0) {
    if (isTold) say(`${plain(name)}: not refused`);
  } else say(utf8(ended.said).trimEnd());
  return ended.status ?? 70;
}

// Says the notes on a text that the program has taken. What can't be read twice has none.
async function note(program, words, name, schedule) {
  if (words.some((word) => ['-h', '--help', '-V', '--version'].includes(word)) || name === null || isReadOnce(name)) return 0;
  const data = readText(name);
  const test = await testIn(name, data);
  const quick = words.filter((word) => word === '--quick');
  const outcomes = schedule === null ? await reported(program, quick, data, LIMIT_OF_NOTES) : [];
  for (const each of await notesOfReport(data, test, outcomes)) say(`${plain(name)}:${each.line}: note: ${each.said}`);
  return 0;
}

async function main(given) {
  const isNamed = given[0] === '--program' && given.length > 1;
  let words = isNamed ? given.slice(2) : given;
  const program = () => namedProgram(isNamed ? given[1] : null);
  if (words.length === 1 && (words[0] === '--help' || words[0] === '-h')) return help();
  const [mode] = words;
  if (['--input-failed', '--notes', '--why', '--words-refused'].includes(mode)) words = words.slice(1);
  if (mode === '--words-refused') {
    for (const line of adviceOnWords(words)) say(`  ${line}`);
    return 2;
  }
  const { places, schedule } = parsed(words);
  const name = places.length ? words[places[0]] : standardInput();
  if (mode === '--notes') return places.length < 2 ? note(await program(), words, name, schedule) : 2;
  if (mode === '--input-failed') {
    if (places.length) failed(name);
    return 4;
  }
  if (name === null || isReadOnce(name)) {
    say("jslit-explain: only a text in a file is explained; a pipe can't be read twice");
    return 2;
  }
  if (places.length > 1) {
    const ended = await runOf(await program(), words, '');
    say(utf8(ended.said).trimEnd());
    return ended.status ?? 70;
  }
  return explained(await program(), words.filter((_, place) => !places.includes(place)), name, schedule, mode !== '--why');
}

run('jslit-explain', main);
