'use strict';
// Runs of the programs, a few at a time: of jslit for the report on a text, and of jslit-why for an execution, or for what refuses it.

const os = require('os');
const path = require('path');
const { Failure, plain } = require('../lines.js');
const { limited } = require('../pool.js');
const { builtProgram, findProgram } = require('../programs.js');
const { KeptReport, VALUES, valuesIn } = require('../report.js');
const { runOf } = require('../running.js');

const RUNS = Math.max(1, os.cpus().length);   // of the programs, at a time

function reportOf(printed) {
  const report = new KeptReport(VALUES);
  report.take(printed);
  return valuesIn(report.close());
}

class Asked {
  constructor({ program, why, limit }) {
    Object.assign(this, { limit, limited: limited(RUNS), count: 0, found: {} });
    this.find = { jslit: () => findProgram(program), 'jslit-why': () => (why ? path.resolve(why) : builtProgram('jslit-why')) };
  }

  // The path of a program, found once.
  program(name) {
    return (this.found[name] ??= this.find[name]());
  }

  // The report on a text; with words for jslit-why what that says.
  async ask({ text, why }) {
    if (why === undefined) return reportOf(await this.printed('jslit', [], text));
    const printed = await this.printed('jslit-why', ['--json', ...why], text);
    if (printed.startsWith('{')) return { why: JSON.parse(printed) };
    if (!printed.startsWith('refused ')) throw new Failure(70, 'jslit-why gave no answer');
    return { why: { refused: printed.trim() } };
  }

  async printed(name, words, text) {
    const program = await this.program(name);
    const run = await this.limited(() => {
      this.count += 1;
      return runOf(program, words, text, { limit: this.limit * 1000 });
    });
    if (run.late) throw new Failure(5, `the program gave no report on a text within ${this.limit} seconds (--limit)`);
    if (run.status === 3) throw new Failure(3, 'the program ran out of memory');
    if (run.signal || (run.status !== 0 && run.status !== 1)) {
      throw new Failure(70, `${plain(program)} gave no report, and ended with ${run.signal || `status ${run.status}`}`);
    }
    return run.out;
  }
}

module.exports = { Asked, reportOf };
