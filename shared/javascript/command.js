'use strict';
// What the commands share: their words, children that are stopped with the command, and faults.

const crypto = require('crypto');
const fs = require('fs');
const os = require('os');
const path = require('path');
const { spawn } = require('child_process');
const { Failure, Fault, plain } = require('./lines.js');
const limits = require('../limits.json');
const { VARIABLE } = require('./processes.js');
const { givenWords, pathOf, shown, strerror } = require('./system.js');
const { VERSION } = require('./version.js');

const TOP = path.resolve(__dirname, '..', '..');
const JSLIT = path.join(TOP, 'bin', 'jslit');
const SIGNALS = { SIGHUP: 129, SIGINT: 130, SIGQUIT: 131, SIGTERM: 143 };
const PATIENCE = 200;   // milliseconds between a signal to what was started and its end

// Children have process groups of their own, so that all that they started can be stopped with them, and a mark in their
// environment, by which those are found that left their group.
const children = new Set();
const MARK = crypto.randomUUID();
let stopping = false;
let folder;
let keeper;

// A folder for this run, which goes when it ends.
function makeFolder() {
  try {
    folder = fs.mkdtempSync(path.join(os.tmpdir(), 'jslit-engine-'));
  } catch (error) {
    throw new Failure(4, `no folder can be made: ${plain(error.message)}`);
  }
  process.on('exit', () => fs.rmSync(folder, { recursive: true, force: true }));
  return folder;
}

// A process that ends the children and removes the folder where this one is killed, and can't.
function keep() {
  keeper = spawn(process.execPath, [path.join(__dirname, 'keeper.js'), MARK, ...(folder ? [folder] : [])],
    { stdio: ['pipe', 'ignore', 'ignore'], detached: true });
  keeper.on('error', () => {});
  keeper.stdin.on('error', () => {});
  keeper.unref();
  keeper.stdin.unref();
}

function stop(child, signal) {
  try {
    process.kill(-child.pid, signal);
  } catch {
    // It has ended.
  }
}

// Starts a child; `ended` is a promise of its status and signal, or of why it could not be started. It comes once the
// child's outputs are closed too, by all that have them.
function start(command, words, stdio, mark = MARK) {
  if (keeper === undefined) keep();
  const child = spawn(command, words, { stdio, detached: true, env: { ...process.env, [VARIABLE]: mark } });
  if (child.pid !== undefined) children.add(child);
  const ended = new Promise((done) => {
    child.on('error', (error) => done({ error }));
    child.on('close', (status, signal) => {
      stop(child, 'SIGKILL');
      children.delete(child);
      done({ status, signal });
    });
  });
  return { child, ended };
}

// At a signal all that was started ends, and then this process: with the signal's number, or where it is quiet by the signal itself or with
// this status. What the caller of such a one ignores, as shared/bash/command.sh says, it ignores.
function endAtSignals(isQuiet, status = null) {
  const isIgnored = (signal) => isQuiet && (process.env.JSLIT_IGNORED ?? '').includes(signal);
  for (const [signal, number] of Object.entries(SIGNALS).filter(([each]) => !isQuiet || each !== 'SIGQUIT')) {
    const end = () => {
      for (const child of children) stop(child, 'SIGKILL');
      if (!isQuiet || status !== null) process.exit(status ?? number);
      process.removeAllListeners(signal);
      process.kill(process.pid, signal);
    };
    process.removeAllListeners(signal).on(signal, () => {
      if (stopping || isIgnored(signal)) return;
      stopping = true;
      for (const child of children) stop(child, 'SIGTERM');
      if (isQuiet && children.size > 0) Atomics.wait(new Int32Array(new SharedArrayBuffer(4)), 0, 0, PATIENCE);
      if (isQuiet) return end();
      process.stderr.write(`${name}: stopped by ${signal}\n`);
      return setTimeout(end, PATIENCE);
    });
  }
}

// The text in a file, up to one byte more than a text may have, as the program reads it.
function bytesIn(file) {
  const text = Buffer.alloc(limits.text + 1);
  const from = fs.openSync(pathOf(file), 'r');
  let length = 0;
  try {
    for (let more = 1; more > 0 && length < text.length; length += more) more = fs.readSync(from, text, length, text.length - length);
  } finally {
    fs.closeSync(from);
  }
  return text.subarray(0, length);
}

function readText(file) {
  try {
    return bytesIn(file);
  } catch (error) {
    throw new Failure(4, `${plain(file)}: ${strerror(error)}`);
  }
}

// What this command is called, its help, and its version.
let name = null;
const usage = () => fs.readFileSync(path.join(TOP, 'docs', 'help', `${name}.txt`), 'utf8');
const help = () => tellAll(usage());
const tellVersion = async () => tellAll(`${name} ${VERSION}\n`);

// All that a command has to say, and its status. A quiet one says nothing of an output that doesn't take that.
let isAnswered = false;
function tellAll(text) {
  isAnswered = true;
  process.stdout.write(text);
  return 0;
}

// Runs a command's `main`, and ends with its status. One that starts no programs has none to stop, and a signal itself ends it. One that is
// quiet says nothing of signals; one that is brief says no more of words than their fault.
function run(command, main, { starts = true, isQuiet = false, isBrief = isQuiet } = {}) {
  name = command;
  if (isQuiet) process.stderr.on('error', () => {});
  if (starts) endAtSignals(isQuiet);
  process.stdout.on('error', (error) => {
    if (error.code !== 'EPIPE' && !(isQuiet && isAnswered)) process.stderr.write(`${name}: ${strerror(error)}\n`);
    process.exit(4);
  });
  const done = () => keeper?.stdin.end('done');
  const words = givenWords();
  const work = words.length === 1 && words[0] === '--version' ? tellVersion() : main(words);
  work.finally(() => stopping || done()).then((status) => {
    process.exitCode = status;
  }, (error) => {
    if (stopping) return;
    const isOfSystem = isQuiet && error.syscall !== undefined;
    const where = error.path === undefined ? '' : `${shown(error.path)}: `;
    const isTold = error instanceof Failure || error instanceof Fault;
    const more = error.status !== 2 ? '' : isBrief ? `; ${name} --help says what they may be` : `\n${usage().trimEnd()}`;
    process.stderr.write(`${name}: ${isOfSystem ? `${where}${strerror(error)}` : isTold ? error.message : error.stack}${more}\n`);
    process.exitCode = error.status ?? (isOfSystem ? 4 : error instanceof Fault ? 1 : 70);
  });
}

// Whether a signal has come: what fails from then on says nothing.
const isStopping = () => stopping;

const grouped = (number) => String(number).replace(/\B(?=(?:[0-9]{3})+$)/g, ',');

module.exports = {
  Failure, JSLIT, MARK, TOP, bytesIn, endAtSignals, grouped, help, isStopping, makeFolder, readText, run, start, stop, tellVersion, usage,
};
