'use strict';
// A test in a file, and what a report allows it: the program's, or one that stands in a file.

const fs = require('fs');
const { Failure, readText } = require('./command.js');
const { plain } = require('./lines.js');
const { testIn, wholeReport } = require('./programs.js');
const { KeptReport, VALUES, readReports } = require('./report.js');
const { strerror } = require('./system.js');
const { namesOf } = require('./text/tests.js');

// The values of an outcome as one word.
const keyOf = (values) => values.join(' ');

// What a report allows: the registers, the values of each outcome, how many there are, and the verdict.
const allowedBy = ({ registers, outcomes, other }) => ({ registers, outcomes, ...other });

// What stands in a file of a report.
async function readReportFile(file) {
  const report = new KeptReport(VALUES);
  await readReports(fs.createReadStream(file), () => (part) => report.give(part)).catch((error) => {
    throw error.syscall === undefined ? error : new Failure(4, `${plain(file)}: ${strerror(error)}`);
  });
  if (report.other.verdict === undefined || report.other.count === undefined) throw new Failure(1, `${plain(file)} has no report`);
  return allowedBy(report);
}

// The test in a file, its text, and what is allowed of it by the program's report, or by the report in a file. The program
// takes the text first, in both cases: beside a report in a file it is asked for the empty schedule, which needs no search.
// `limit` is how many seconds the program has, or undefined.
async function testAndReport({ file, program, report, limit: seconds = null }) {
  const text = readText(file);
  const range = { ...VALUES, limit: seconds && seconds * 1000, seconds, shows: true };
  const told = allowedBy(await wholeReport(program, report === null ? [] : ['--schedule', ''], file, text, range));
  const test = await testIn(file, text);
  const allowed = report === null ? told : await readReportFile(report);
  if (allowed.verdict === undefined) throw new Failure(70, `${plain(program)} gave no report`);
  for (const { test: name, registers } of [told, allowed]) {
    if (name !== test.name || registers.join() !== namesOf(test).join()) {
      throw new Failure(1, `the report isn't of the test ${test.name} and its registers`);
    }
  }
  return { text: text.toString('latin1'), test, allowed };
}

module.exports = { keyOf, testAndReport };
