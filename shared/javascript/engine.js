'use strict';
// A run of an engine within limits of time, output and memory: how it ended, and what it printed.

const { Failure, MARK, start, stop } = require('./command.js');
const { startedBy } = require('./identity.js');
const { plain } = require('./lines.js');
const { Pinning, busySince, ticksOf } = require('./machine.js');
const { Output, WORDS } = require('./output.js');
const { Processes } = require('./processes.js');

const LOOKS = 200, FIRST_LOOK = 50;  // milliseconds between two looks at the memory and the threads, and before the first
const CLOSING = 2000;                // milliseconds for its outputs to be closed, once all is ended
const TICKS = 100;                   // of a processor in a second, as /proc counts them
const MEGABYTE = 2 ** 20;

// Takes what the engine prints on both outputs, and calls `endAt` where that is too much.
function collect(child, limits, endAt) {
  const outputs = { stdout: new Output(), stderr: new Output() };
  let bytes = 0;
  for (const [name, output] of Object.entries(outputs)) {
    child[name].setEncoding('latin1');
    child[name].on('data', (piece) => {
      bytes += piece.length;
      if (bytes > limits.output * MEGABYTE) endAt(`it printed more than ${limits.output} MB`);
      else output.take(piece);
      if (output.words.length > WORDS) endAt(`it printed more than ${WORDS} lines that begin with {`);
    });
  }
  return outputs;
}

// Looks again and again at the processes of a run: at their memory, at their threads, and at how busy the machine is beside them.
class Watch {
  constructor(processes, processors, limits, endAt) {
    Object.assign(this, { processes, limits, endAt });
    this.pinning = new Pinning(processors);
    this.began = ticksOf();
    this.since = Date.now();
    this.load = { busy: 0, others: 0 };
    this.first = setTimeout(() => this.look(), FIRST_LOOK);
    this.timer = setInterval(() => this.look(), LOOKS);
  }

  look() {
    const found = this.processes.now();
    const sum = (name) => found.reduce((total, each) => total + each[name], 0);
    if (sum('bytes') > this.limits.memory * MEGABYTE) this.endAt(`it had more than ${this.limits.memory} MB of memory`);
    this.pinning.look(found.map(({ pid }) => pid));
    const busy = busySince(this.began);
    const own = sum('ticks') / TICKS / ((Date.now() - this.since) / 1000);
    this.load = { busy: round(busy), others: round(Math.max(0, busy - own)) };
  }

  end() {
    clearTimeout(this.first);
    clearInterval(this.timer);
  }
}

const round = (number) => Math.round(number * 100) / 100;

// What engines that run have started: it ends with this process.
const running = new Set();
process.on('exit', () => running.forEach((processes) => processes.end()));
let runs = 0;

// Starts the engine with a last word, as the file of a program, for so many seconds. `processors` are those that its agents may
// have, one each; `limits` what it may have: seconds more than it is asked to run, and megabytes of memory and output. `limit` is the
// limit at which it was ended, or null.
async function runEngine(engine, last, seconds, { processors = [], limits }) {
  const [command, ...words] = startedBy(engine);
  runs += 1;
  const mark = `${MARK}:${runs};`;
  const processes = new Processes(mark);
  running.add(processes);
  const { child, ended } = start(command, [...words, last], ['ignore', 'pipe', 'pipe'], mark);
  if (child.pid === undefined) throw new Failure(70, `the engine isn't run: ${plain((await ended).error.message)}`);
  let limit = null;
  const endAll = () => {
    stop(child, 'SIGKILL');
    processes.end();
  };
  const endAt = (text) => {
    if (limit === null) endAll();
    limit ??= text;
  };
  const outputs = collect(child, limits, endAt);
  const late = setTimeout(() => endAt(`it didn't end ${limits.grace} seconds after its time`), (seconds + limits.grace) * 1000);
  const watch = new Watch(processes, processors, limits, endAt);
  child.on('exit', () => {
    endAll();
    setTimeout(() => [child.stdout, child.stderr].forEach((stream) => stream.destroy()), CLOSING).unref();
  });
  const end = await ended;
  running.delete(processes);
  clearTimeout(late);
  watch.end();
  if (end.error) throw new Failure(70, `the engine isn't run: ${plain(end.error.message)}`);
  const [stdout, stderr] = [outputs.stdout.close(), outputs.stderr.close()];
  return { ...end, limit, words: stdout.words, text: stdout.others, stdout, stderr, load: watch.load };
}

module.exports = { runEngine };
