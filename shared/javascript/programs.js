'use strict';
// The proved programs: where they stand, and what they answer.

const fs = require('fs');
const path = require('path');
const answers = require('./answers.js');
const { Failure, JSLIT, TOP, start } = require('./command.js');
const { plain } = require('./lines.js');
const { statusOf, strerror } = require('./system.js');
const { printedOf } = require('./text/faults.js');

// Of each program the crate that it is built from.
const CRATES = { jslit: 'jslit_cli', 'jslit-text': 'jslit_text', 'jslit-why': 'jslit_why' };

const installed = (name) => path.join(TOP, 'libexec', name);
const made = (name) => path.join(TOP, 'crates', CRATES[name], 'out', CRATES[name]);

// Where a program of this repository stands once it is built.
const placeOf = (name) => (fs.existsSync(installed(name)) ? installed(name) : made(name));

// A program of this repository, proved and built first where that is due: so it isn't asked anew before each run.
async function builtProgram(name) {
  if (fs.existsSync(installed(name))) return installed(name);
  const { error, status } = await start(path.join(TOP, 'tools', 'build-program'), [made(name), name], ['ignore', 2, 2]).ended;
  if (error || status !== 0) throw new Failure(70, `there is no program ${name}`);
  return made(name);
}

// The program named, or else that of bin/jslit: what this runs, since it looks at its sources whenever it starts.
async function findProgram(name) {
  const found = name && (fs.existsSync(name) ? fs.realpathSync(name) : path.resolve(name));
  return !found || found === JSLIT ? builtProgram('jslit') : found;
}

// The same, if it runs.
async function namedProgram(name) {
  const found = await findProgram(name);
  const { error, ...ended } = await start(found, ['--help'], ['ignore', 'ignore', 'inherit']).ended;
  const fault = error ? strerror(error) : statusOf(ended) && `--help ends with status ${statusOf(ended)}`;
  if (fault) throw new Failure(70, `${plain(name ?? found)}: it doesn't run: ${fault}`);
  return found;
}

// The test of the text in the file of this name, where that isn't refused.
async function testIn(name, data) {
  const { test, fault } = await answers.tellText(await builtProgram('jslit-text'), name, data);
  if (fault) throw new Failure(1, `${plain(name)}: ${printedOf(fault)}; jslit-explain says more`);
  return test;
}

// A program that is asked of texts, within a limit of time for all of them together.
class Program {
  // By so many `runs` so far, which have so many seconds together from now on.
  constructor(program, seconds) {
    Object.assign(this, { program, seconds, end: performance.now() + seconds * 1000, runs: 0 });
  }

  // The report on the text of the file of this name, of which so much is kept as KeptReport says.
  report(name, data, words = [], kept = {}) {
    this.runs += 1;
    const limit = Math.max(1, this.end - performance.now());
    return answers.wholeReport(this.program, words, name, data, { ...kept, limit, seconds: this.seconds });
  }
}

// The status of jslit-js, which has these words and what this command has of a terminal.
async function byJslitJs(program, words) {
  const named = program === null ? [] : ['--program', program];
  const { error, status, signal } = await start(path.join(TOP, 'bin', 'jslit-js'), [...named, ...words], 'inherit').ended;
  if (error) throw new Failure(70, `jslit-js can't be run: ${strerror(error)}`);
  return signal ? 128 - statusOf({ signal }) : status;
}

module.exports = { Program, TOP, builtProgram, byJslitJs, namedProgram, placeOf, findProgram, testIn, ...answers };
