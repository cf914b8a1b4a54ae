'use strict';
// What the proved programs answer to commands: jslit by its report, jslit-text by what it says of a text, jslit-why by its JSON.

const { Failure, plain } = require('./lines.js');
const { KeptReport } = require('./report.js');
const { runOf } = require('./running.js');
const { executionIn, fromWords } = require('./executions/execution.js');

// What the program prints on a text, as a report, of which so much is kept as KeptReport says; null where it prints none, with the fault of
// what it prints, or null.
async function reportOf(program, words, data, { limit = null, shows = false, ...kept } = {}) {
  const report = new KeptReport(kept);
  let fault = null;
  const take = (piece) => {
    try {
      report.take(piece);
      return true;
    } catch (error) {
      fault = error;
      return false;
    }
  };
  const run = await runOf(program, words, data, { limit, take, shows });
  try {
    if (fault === null && run.whole && !run.late) return { run, report: report.close(), fault };
  } catch (error) {
    fault = error;
  }
  return { run, report: null, fault };
}

const silent = ({ status, signal, said }) => said.trim() || (signal ? `it ended by ${signal}` : `status ${status}`);

// The same of the text in the file of this name, where the program refuses nothing; `seconds` are those that are told where its time is up.
async function wholeReport(program, words, name, data, { seconds, ...range } = {}) {
  const { run, report, fault } = await reportOf(program, words, data, range);
  if (run.late) throw new Failure(5, `${plain(name)}: no answer within ${seconds} seconds`);
  if (run.status === 1 && report?.other.refused) throw new Failure(1, `${plain(name)}: ${report.other.refused}; jslit-explain says more`);
  if (run.status === 3) throw new Failure(3, `${plain(name)}: out of memory`);
  if (run.status === 0 && report?.other.test) return report;
  throw new Failure(70, `${plain(program)}: no report on ${plain(name)}: ${plain(run.said.trim() || (fault?.message ?? silent(run)))}`);
}

// What jslit-text says of a text: docs/schemas/text.json.
async function tellText(program, name, data) {
  const run = await runOf(program, [], data);
  if (run.status === 3) throw new Failure(3, `${plain(name)}: out of memory`);
  if (run.status !== 0 && run.status !== 1) throw new Failure(70, `${plain(program)}: ${plain(silent(run))}`);
  return JSON.parse(run.out);
}

// What jslit-why answers to these words about a text, within so many milliseconds.
async function tellWhy(program, words, name, data, limit = null) {
  const run = await runOf(program, ['--json', ...words], data, { limit });
  const said = run.out.trim();
  if (run.late) throw new Failure(5, `${plain(name)}: no answer within ${(limit / 1000).toFixed(1)} seconds`);
  if ((run.status === 0 || run.status === 1) && said.startsWith('{')) return JSON.parse(said);
  if (run.status === 1) throw new Failure(1, `${plain(name)}: ${said}; jslit-explain says more`);
  if (run.status === 3) throw new Failure(3, `${plain(name)}: out of memory`);
  throw new Failure(70, `${plain(program)}: ${plain(silent(run))}`);
}

// What asks jslit-why for the execution with these sources and values, or gives null where no choice has them.
const executionOf = (program, name, data) => async (sources, values, limit) => (
  executionIn(await tellWhy(program, ['--from', fromWords(sources, values)], name, data, limit)));

module.exports = { executionOf, reportOf, runOf, silent, tellText, tellWhy, wholeReport };
