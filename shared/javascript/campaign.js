'use strict';
// A campaign: each test on each engine, so many at a time, with what came of every run as a record.

const crypto = require('crypto');
const fs = require('fs');
const os = require('os');
const path = require('path');
const { keyOf, testAndReport } = require('./allowed.js');
const { Failure, isStopping, makeFolder, readText } = require('./command.js');
const { runEngine } = require('./engine.js');
const { keep, reasonsOf } = require('./keep.js');
const { Fault, plain } = require('./lines.js');
const { mixesSizes } = require('./code.js');
const { Machine } = require('./machine.js');
const { programOf, settingsOf } = require('./program.js');
const { findProgram } = require('./programs.js');
const { FORM } = require('./record.js');
const { toldBy } = require('./told.js');
const { VERSION } = require('./version.js');

const STDERR = 4096;   // characters of an engine's standard error in a record

const quoted = (word) => (/^[A-Za-z0-9_./+=:,@-]+$/.test(word) ? word : `'${word.replace(/'/g, "'\\''")}'`);

// What a run came to: an outcome that is not allowed says so however the engine ended, and whatever was in step.
function resultOf(outside, failure, inStep, wanted) {
  if (outside.length > 0) return 'not allowed';
  if (failure !== null) return 'failed';
  return inStep >= wanted ? 'allowed' : 'not enough';
}

const STATUSES = { allowed: 0, 'not enough': 5, failed: 1, 'not allowed': 1 };

class Campaign {
  // `engines` are records of engines, `where` is that of the machine; `words` those of the command line, with numbers for numbers.
  constructor(words, engines, where, log) {
    Object.assign(this, { words, engines, where, log });
    this.settings = { tried: words.tried, in_step: words['in-step'], seed: words.seed };
    this.machine = new Machine(words.jobs);
    this.folder = makeFolder();
    this.runs = 0;
  }

  // The command that repeats a run.
  again(file, { engine, engine_id: id }) {
    const { tried, in_step: inStep, seed } = this.settings;
    const words = ['jslit-engine', '--engine', engine, '--tried', tried, '--in-step', inStep, '--seed', seed];
    for (const name of ['grace', 'memory', 'output']) words.push(`--${name}`, this.words[name]);
    if (id !== null) words.push('--engine-id', id);
    for (const name of ['program', 'report']) if (this.words[name] !== null) words.push(`--${name}`, this.words[name]);
    return [...words, file].map((word) => quoted(String(word))).join(' ');
  }

  // What is known of a run before it begins.
  begun(file, text, engine) {
    return {
      form: FORM, result: 'not run', failed_before: 0, text: crypto.createHash('sha256').update(text).digest('hex'),
      ...engine, ...this.where, settings: this.settings, jslit: VERSION, file, date: new Date().toISOString(),
    };
  }

  // Each test with each engine; the runs of a test share its report.
  * pairs(files) {
    for (const file of files) {
      const told = {};
      for (const engine of this.engines) yield { file, engine, told };
    }
  }

  // Gives each run's record as it ends, with its status and whether the log had it.
  async each(files, give) {
    const pairs = this.pairs(files);
    const work = async () => {
      for (let pair; !isStopping() && (pair = pairs.next().value) !== undefined;) {
        const done = await this.one(pair);
        if (isStopping()) return;
        give(done);
        if (!done.known) this.log.add(done.run);
      }
    };
    await Promise.all(Array.from({ length: this.words.jobs }, () => work().finally(() => pairs.return())));
  }

  // A run. A failure has a record too.
  async one({ file, engine, told }) {
    let text = Buffer.alloc(0);
    let unread;
    try {
      text = readText(file);
    } catch (error) {
      unread = error;
    }
    const run = this.begun(file, text, engine);
    if (unread !== undefined) return this.without(run, 'no report', unread);
    const { record, failed } = this.log.found(run);
    if (record !== undefined) return { run: record, known: true, failed, status: failed ? 1 : STATUSES[record.result] };
    run.failed_before = Number(failed);
    try {
      told.report ??= this.reportOf(file);
      const report = await told.report.catch((error) => {
        run.result = 'no report';
        throw error;
      });
      Object.assign(run, await this.runOn(engine, report, file, run));
      return { run, known: false, failed, told: report, status: failed ? 1 : STATUSES[run.result] };
    } catch (error) {
      if (!(error instanceof Failure || error instanceof Fault)) throw error;
      return this.without(run, run.result, error);
    }
  }

  // A run that came to nothing.
  without(run, result, failure) {
    const failed = run.failed_before > 0;
    return { run: { ...run, result, said: failure.message }, known: false, failed, failure, status: failed ? 1 : failure.status ?? 70 };
  }

  // The test in a file, and its report; the program is looked for when it is first asked.
  async reportOf(file) {
    this.program ??= findProgram(this.words.program);
    return testAndReport({ ...this.words, program: await this.program, file });
  }

  async runOn(engine, { test, allowed }, file, run) {
    if (os.endianness() === 'BE' && mixesSizes(test)) {
      throw new Failure(1, 'this machine is big-endian, and the test has accesses of several sizes to one byte');
    }
    if (allowed.count !== allowed.outcomes.length) {
      process.stderr.write(`jslit-engine: the report says ${allowed.count} outcomes, and has ${allowed.outcomes.length}\n`);
    }
    const settings = settingsOf(test, this.settings, this.machine.processors.length);
    const program = programOf(test, settings);
    const { end, seconds } = await this.started(engine.engine, program, test.agents.length);
    const { seen, copies, inStep, failure } = toldBy(end, test.agents.length, allowed.registers.length);
    const inside = allowed.outcomes.map((values) => ({ values, times: seen.get(keyOf(values))?.times ?? 0 }));
    const known = new Set(allowed.outcomes.map(keyOf));
    const outside = [...seen.entries()].filter(([key]) => !known.has(key)).map(([, entry]) => entry);
    const result = resultOf(outside, failure, inStep, this.settings.in_step);
    const made = {
      result, test: test.name, verdict: allowed.verdict, registers: allowed.registers,
      end: { status: end.status, signal: end.signal, stderr: end.stderr.beginning.slice(0, STDERR) },
      load: { processors: this.machine.processors.length, ...end.load }, seconds, copies, in_step: inStep,
      outcomes: inside.length, seen: inside.filter(({ times }) => times > 0), not_allowed: outside,
    };
    if (failure !== null) made.said = failure;
    if (result !== 'failed' && result !== 'not allowed') return made;
    if (outside.length > 0) made.why = await reasonsOf(allowed.registers, outside, file);
    made.again = this.again(file, engine);
    if (this.words.keep !== null) this.keep(made, run, { program, file, end });
    return made;
  }

  // Keeps a run; where that fails the run's result is none the less one.
  keep(made, run, what) {
    try {
      made.kept = keep(this.words.keep, { ...run, ...made }, what);
    } catch (error) {
      if (!(error instanceof Failure)) throw error;
      made.said = [made.said, error.message].filter(Boolean).join('; ');
    }
  }

  // Runs an engine on processors of its own, with the program in a folder of its own.
  async started(engine, program, agents) {
    this.runs += 1;
    const folder = path.join(this.folder, String(this.runs));
    const processors = await this.machine.take(agents);
    try {
      fs.mkdirSync(folder);
      const last = path.join(folder, 'program.js');
      fs.writeFileSync(last, program);
      const begun = Date.now();
      const options = { processors: processors.length < agents ? [] : processors, limits: this.words };
      const end = await runEngine(engine, last, this.settings.tried, options);
      return { end, seconds: (Date.now() - begun) / 1000 };
    } catch (error) {
      throw error.syscall === undefined ? error : new Failure(4, plain(error.message));
    } finally {
      fs.rmSync(folder, { recursive: true, force: true });
      this.machine.give(processors);
    }
  }
}

module.exports = { Campaign };
