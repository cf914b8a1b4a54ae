'use strict';
// What jslit-engine prints of runs.

const { keyOf } = require('./allowed.js');
const { grouped } = require('./command.js');
const { plain } = require('./lines.js');
const { RESULTS } = require('./record.js');
const { meetsOf } = require('./text/tests.js');

const SHOWN = 8;   // lines of an engine's standard error

// A line of an outcome, as often as it was seen.
function outcomeLine(registers, { values, times }, meets, mark) {
  const outcome = registers.map((register, place) => `${register}=${values[place]}`).join(' ');
  return `${grouped(times).padStart(13)}  ${outcome}${meets(values) ? '  meets the condition' : ''}${mark}\n`;
}

// What an engineer needs where a run went wrong.
const details = (done) => [
  ...(done.said === undefined || done.end === undefined ? [] : done.end.stderr.split('\n').filter(Boolean).slice(0, SHOWN)
    .map((line) => `  stderr: ${plain(line.slice(0, 200))}\n`)),
  ...(done.why ?? []).map((line) => `  ${plain(line)}\n`),
  ...(done.again === undefined ? [] : [`  again: ${plain(done.again)}\n`]),
  ...(done.kept === undefined ? [] : [`  kept: ${plain(done.kept)}\n`])];

const inStep = (done) => `in step ${grouped(done.in_step)} of ${grouped(done.copies)}`;

// The whole of one run: the outcomes of the report in its order, and then those that it doesn't have.
function histogram({ told: { test, allowed }, run: done }, seenAlone) {
  const times = new Map(done.seen.map((entry) => [keyOf(entry.values), entry.times]));
  const entries = allowed.outcomes.map((values) => ({ values, times: times.get(keyOf(values)) ?? 0 }));
  const kept = entries.filter((entry) => !seenAlone || entry.times > 0);
  const meets = meetsOf(test);
  const { processors, busy, others } = done.load;
  return [`test ${done.test} on ${plain(done.engine)}: ${grouped(done.copies)} copies in ${done.seconds} seconds, ${inStep(done)}\n`,
    `${busy} of ${processors} processors busy, ${others} of them with other work\n`,
    ...kept.map((entry) => outcomeLine(allowed.registers, entry, meets, '')),
    ...done.not_allowed.map((entry) => outcomeLine(allowed.registers, entry, meets, '  NOT ALLOWED')),
    `outcomes ${done.outcomes}, seen ${done.seen.length}, not allowed ${done.not_allowed.length}\n`,
    ...(done.result === 'not enough' ? [`not enough: ${grouped(done.settings.in_step)} copies should be in step\n`] : []),
    ...(done.said === undefined ? [] : [`FAILED: ${done.said}\n`]),
    ...details(done)].join('');
}

// A run of several: a line, and one more for each outcome that is not allowed.
function brief({ run: done, known }) {
  const seen = done.end === undefined ? null : `seen ${done.seen.length} of ${done.outcomes}, ${inStep(done)}`;
  const said = [done.said === undefined ? null : plain(done.said), seen].filter((part) => part !== null).join(', ');
  const before = done.failed_before > 0 ? ', failed before' : '';
  const lines = [`${plain(done.file)} on ${plain(done.engine)}: ${done.result}, ${said}${before}${known ? ' (of the log)' : ''}\n`];
  for (const entry of done.not_allowed ?? []) lines.push(outcomeLine(done.registers, entry, () => false, '  NOT ALLOWED'));
  return [...lines, ...details(done)].join('');
}

const counted = (number, what) => `${grouped(number)} ${what}${number === 1 ? '' : 's'}`;

const middleOf = (numbers) => numbers[Math.floor((numbers.length - 1) / 2)];

// The sum of a campaign.
class Summary {
  constructor(engines) {
    this.engines = engines;
    this.worst = new Map();      // the worst result of each test
    this.inStep = [];
    this.others = [];
    this.failedBefore = 0;
  }

  take({ run, failed }) {
    const rank = RESULTS.indexOf(run.result);
    this.worst.set(run.file, Math.max(rank, this.worst.get(run.file) ?? 0));
    if (run.in_step !== undefined) this.inStep.push(run.in_step);
    if (run.load !== undefined) this.others.push(run.load.others);
    this.failedBefore += Number(failed);
  }

  text() {
    const counts = RESULTS.map((result, rank) => `${result} ${[...this.worst.values()].filter((each) => each === rank).length}`);
    const tests = `${counted(this.worst.size, 'test')} on ${counted(this.engines, 'engine')}`;
    const lines = [`${tests}, each by its worst run: ${counts.join(', ')}`];
    if (this.failedBefore > 0) lines.push(`failed before, by the log: ${counted(this.failedBefore, 'run')}`);
    if (this.inStep.length > 0) {
      const [inStep, others] = [this.inStep, this.others].map((numbers) => [...numbers].sort((one, other) => one - other));
      lines.push(`copies in step: ${grouped(inStep[0])} at the least, ${grouped(middleOf(inStep))} in the median`);
      lines.push(`processors busy with other work: ${middleOf(others)} in the median, ${others.at(-1)} at the most`);
    }
    return lines.map((line) => `${line}\n`).join('');
  }
}

module.exports = { Summary, brief, histogram };
