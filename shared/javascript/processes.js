'use strict';
// The processes that a run has started, however they left it: those whose environment has the run's mark, those that these
// have started, and those in a group or session of one of them. They are found in /proc, so on Linux; elsewhere none is.

const fs = require('fs');

const VARIABLE = 'JSLIT_RUN';
const PAGE = 4096;                   // bytes of a page of memory, as /proc counts them on most machines
const ROUNDS = 40, PAUSE = 25;       // how often, and after how many milliseconds, it is looked for processes to end

const clock = new Int32Array(new SharedArrayBuffer(4));

// A file of /proc, or null where it isn't there, or isn't ours.
function readOf(name) {
  try {
    return fs.readFileSync(`/proc/${name}`, 'latin1');
  } catch {
    return null;
  }
}

// What /proc says of a process, or in this place of a thread; its key tells it from a later one of the same number.
function processOf(pid, place = pid) {
  const text = readOf(`${place}/stat`);
  if (text === null) return null;
  const words = text.slice(text.lastIndexOf(')') + 2).split(' ');
  const [state, parent, group, session] = words;
  return {
    pid, key: `${pid}:${words[19]}`, state, parent: Number(parent), group, session,
    ticks: Number(words[11]) + Number(words[12]), bytes: Number(words[21]) * PAGE,
  };
}

// The names in a folder of /proc; where there is none there are no names.
function namesIn(folder) {
  try {
    return fs.readdirSync(folder);
  } catch {
    return [];
  }
}

class Processes {
  // Those whose mark begins so.
  constructor(mark) {
    Object.assign(this, { sign: `${VARIABLE}=${mark}`, asked: new Map(), known: new Set() });
  }

  // Whether a process has the mark, or was found before.
  isMarked({ pid, key }) {
    if (!this.asked.has(key)) this.asked.set(key, `\0${readOf(`${pid}/environ`) ?? ''}`.includes(`\0${this.sign}`));
    return this.asked.get(key) || this.known.has(key);
  }

  // Those that are there now.
  now() {
    const every = namesIn('/proc').filter((name) => /^[0-9]+$/.test(name)).map((name) => processOf(Number(name)))
      .filter((each) => each && each.pid !== process.pid && each.state !== 'Z');
    let found = every.filter((each) => this.isMarked(each));
    for (let before = -1; before < found.length;) {
      before = found.length;
      const pids = new Set(found.map(({ pid }) => pid));
      const groups = new Set(found.map(({ group }) => group));
      const sessions = new Set(found.map(({ session }) => session));
      found = every.filter(({ pid, parent, group, session }) => (
        pids.has(pid) || pids.has(parent) || groups.has(group) || sessions.has(session)));
    }
    for (const { key } of found) this.known.add(key);
    return found;
  }

  // Ends them all: again and again, since one may start another while it is looked for them.
  end() {
    for (let round = 0; round < ROUNDS; round += 1) {
      const found = this.now();
      if (found.length === 0) return;
      for (const { pid } of found) {
        try {
          process.kill(pid, 'SIGKILL');
        } catch {
          // It has ended.
        }
      }
      Atomics.wait(clock, 0, 0, PAUSE);
    }
  }
}

module.exports = { Processes, VARIABLE, namesIn, processOf, readOf };
