'use strict';
// The machine that engines run on: which processors this process may use, how busy they are, and who has which. Busy is what /proc
// says, so that it is known on Linux alone; elsewhere all processors count as free.

const os = require('os');
const { execFile } = require('child_process');
const { setTimeout: pause } = require('timers/promises');
const { namesIn, processOf, readOf } = require('./processes.js');

const SPAN = 100;             // milliseconds that a sample has to span at least

// Ticks that each processor was busy and was there, since the machine began.
function ticksOf() {
  return new Map([...(readOf('stat') ?? '').matchAll(/^cpu([0-9]+) (.*)$/gm)].map(([, number, rest]) => {
    const [user, nice, system, idle, wait, irq, softirq, steal] = rest.trim().split(' ').map(Number);
    const busy = user + nice + system + irq + softirq + steal;
    return [Number(number), { busy, all: busy + idle + wait }];
  }));
}

// The processors that this process may use.
function allowed() {
  const list = /^Cpus_allowed_list:\s*(.*)$/m.exec(readOf('self/status') ?? '')?.[1];
  if (list === undefined) return os.cpus().map((_, number) => number);
  return list.split(',').flatMap((part) => {
    const [first, last] = part.split('-').map(Number);
    return Array.from({ length: (last ?? first) - first + 1 }, (_, place) => first + place);
  });
}

// How busy each of the processors was between two samples: from 0 to 1.
function busyBetween(before, after) {
  return new Map([...after].map(([number, { busy, all }]) => {
    const old = before.get(number) ?? { busy, all };
    return [number, all > old.all ? (busy - old.busy) / (all - old.all) : 0];
  }));
}

class Machine {
  constructor(most) {
    this.most = most;                  // runs at a time
    this.processors = allowed();
    this.taken = new Set();            // processors that runs have
    this.runs = 0;
    this.ticks = ticksOf();
    this.when = Date.now();
  }

  // How busy each processor is now.
  async busy() {
    if (Date.now() - this.when < SPAN) await pause(SPAN);
    const now = ticksOf();
    const busy = busyBetween(this.ticks, now);
    [this.ticks, this.when] = [now, Date.now()];
    return busy;
  }

  // The processors for a run of so many agents, those first that are least busy: as many as there are. A run waits as long as
  // others go on that leave too few free; alone it goes in any case.
  async take(agents) {
    for (;;) {
      if (this.runs < this.most) {
        const busy = await this.busy();
        const free = this.processors.filter((number) => !this.taken.has(number));
        const idle = free.length - Math.round(free.reduce((sum, number) => sum + (busy.get(number) ?? 0), 0));
        if (this.runs === 0 || (this.runs < this.most && agents <= idle)) {
          const chosen = leastBusy(free, busy).slice(0, agents);
          for (const number of chosen) this.taken.add(number);
          this.runs += 1;
          return chosen;
        }
      }
      await pause(SPAN);
    }
  }

  give(processors) {
    for (const number of processors) this.taken.delete(number);
    this.runs -= 1;
  }
}

// Processors, the least busy first; of those that are alike none comes first always, since others choose too.
function leastBusy(processors, busy) {
  const ranks = new Map(processors.map((number) => [number, Math.round((busy.get(number) ?? 0) * 4) + Math.random() / 2]));
  return [...processors].sort((one, other) => ranks.get(one) - ranks.get(other));
}

// How busy the processors that this process may use were since `before`, as a number of processors.
function busySince(before) {
  const busy = busyBetween(before, ticksOf());
  return allowed().reduce((sum, number) => sum + (busy.get(number) ?? 0), 0);
}

const threadsOf = (pid) => namesIn(`/proc/${pid}/task`).map((thread) => (
  { thread, ticks: processOf(pid, `${pid}/task/${thread}`)?.ticks ?? 0 }));

// Gives each agent of an engine a processor of its own. Engines don't say which of their threads runs which agent, but agents are
// the busiest; a thread that sleeps and is woken again and again is else put onto the processor of the one that wakes it, where the
// two never run at a time. By `taskset`, so on Linux; where there is none nothing is done.
class Pinning {
  constructor(processors) {
    this.processors = processors;
    this.before = new Map();      // ticks of threads at the last look
    this.pinned = new Map();      // processors of threads
  }

  // Looks at all threads of these processes, and pins those that have been busiest since the last look.
  look(pids) {
    if (this.processors.length < 2) return;
    const threads = pids.flatMap(threadsOf);
    const used = threads.map(({ thread, ticks }) => ({ thread, used: ticks - (this.before.get(thread) ?? 0) }));
    this.before = new Map(threads.map(({ thread, ticks }) => [thread, ticks]));
    const busiest = used.sort((one, other) => other.used - one.used).slice(0, this.processors.length).filter((each) => each.used > 0);
    const chosen = new Set(busiest.map(({ thread }) => thread));
    if (busiest.length < this.processors.length) return;
    for (const thread of [...this.pinned.keys()]) if (!chosen.has(thread)) this.pin(thread);
    const free = this.processors.filter((number) => ![...this.pinned.values()].includes(number));
    for (const thread of chosen) if (!this.pinned.has(thread)) this.pin(thread, free.shift());
  }

  // Gives a thread this processor alone, or without one all.
  pin(thread, number) {
    if (number === undefined) this.pinned.delete(thread);
    else this.pinned.set(thread, number);
    execFile('taskset', ['-cp', String(number ?? this.processors), thread], () => {});
  }
}

module.exports = { Machine, Pinning, busySince, ticksOf };
