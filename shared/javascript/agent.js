// What a worker of an engine runs: script text that program.js puts behind the function `copy` of an agent and these
// constants: AGENT and AGENTS, its number and how many there are; REGISTERS, how many values an outcome has; SETTINGS, of
// program.js. It calls `say` of its host to write a line.
'use strict';

const COPIES = SETTINGS.copies;
const SEED = SETTINGS.seed;
const LOOKS = 3000;                        // looks at a step's barrier before it waits without a core
const FEWEST = 256;                        // copies of a step where steps take long,
const LONG = 100;                          // which is so many milliseconds
const SILENCE = 15000;                     // milliseconds after which an agent counts as lost

// Words of control: agents that came to the barrier of a step, steps' barriers that are open, copies of the next step, whether
// something went wrong, agents that have ended, whether one writes its line, how many copies were in step.
const CAME = 0, OPEN = 1, RUNNING = 2, WRONG = 3, ENDED = 4, SAYING = 5, IN_STEP = 6, CONTROL_WORDS = 16;
const LINE = 16;                           // words between the barriers of two groups
const ROUNDS = LINE;                       // how often agents come to words of a group's barrier, two for each try to line up
const NAP = 1;                             // milliseconds that an agent sleeps there before it looks again
const ASLEEP = 1 << 16;                    // what an agent that waits without a core adds to the word of a round
const MOST_GROUPS = COPIES / 16;

// The parts of the shared block, one after the other.
const BARRIERS_AT = CONTROL_WORDS * 4;
const MET_AT = BARRIERS_AT + MOST_GROUPS * LINE * 4;
const RESULTS_AT = MET_AT + MOST_GROUPS * 4;
const COPIES_AT = Math.ceil((RESULTS_AT + COPIES * REGISTERS * 4) / 64) * 64;
const COPIES_BYTES = COPIES * 192;
const SHARED_BYTES = COPIES_AT + COPIES_BYTES;

// All agents wait for one another; false where one is lost or something went wrong.
function meet(control, count) {
  if (Atomics.add(control, CAME, 1) + 1 === AGENTS * count) {
    Atomics.store(control, OPEN, count);
    Atomics.notify(control, OPEN);
  }
  for (let tries = 0; tries < LOOKS; tries += 1) {
    if (Atomics.load(control, OPEN) >= count) return true;
  }
  const start = Date.now();
  while (Atomics.load(control, OPEN) < count) {
    if (Atomics.load(control, WRONG) !== 0) return false;
    if (Date.now() - start > SILENCE) throw new Error('another agent came to no barrier for 15 seconds');
    Atomics.wait(control, OPEN, count - 1, 100);
  }
  return true;
}

// Waits without a core for the others to come to a round, unless all have come before it is asleep.
function sleepUntilAllCame(state, word) {
  const { barriers, control } = state;
  let seen = Atomics.load(barriers, word);
  for (let before; seen % ASLEEP < AGENTS; seen = before) {
    before = Atomics.compareExchange(barriers, word, seen, seen + ASLEEP);
    if (before === seen) break;
  }
  const start = Date.now();
  while (Atomics.load(barriers, word) % ASLEEP < AGENTS) {
    if (Atomics.load(control, WRONG) !== 0) throw new Error('another agent went wrong');
    if (Date.now() - start > SILENCE) throw new Error('another agent came to no barrier for 15 seconds');
    Atomics.wait(barriers, word, Atomics.load(barriers, word), NAP);
  }
}

// Comes to a round: whether all agents came to it before one fell asleep, which all see alike. The last one wakes those asleep.
function comeTo(state, word, patience) {
  const { barriers } = state;
  if ((Atomics.add(barriers, word, 1) + 1) % ASLEEP === AGENTS) {
    if (Atomics.load(barriers, word) > AGENTS) Atomics.notify(barriers, word);
  } else {
    let tries = 0;
    while (tries < patience && Atomics.load(barriers, word) % ASLEEP !== AGENTS) tries += 1;
    if (tries === patience) sleepUntilAllCame(state, word);
  }
  return Atomics.load(barriers, word) === AGENTS;
}

// The barrier of a group: 1 where all agents came to it, and then answered one another at once: one that the system took away
// while it looked doesn't. Those that were let down sleep until it comes, and all try again, with more patience.
function lineUp(state, group, patience) {
  const word = group * LINE;
  for (let round = 0; round < ROUNDS; round += 2) {
    comeTo(state, word + round, round === 0 ? patience : SETTINGS.waking);
    if (comeTo(state, word + round + 1, SETTINGS.answer)) return 1;
  }
  return 0;
}

function delay(control, turns) {
  for (let turn = 0; turn < turns; turn += 1) Atomics.load(control, WRONG);
}

// How a step is run.
function settingOf(step) {
  const { groups, strides, skews, patiences } = SETTINGS;
  const place = step + SEED;
  return {
    group: groups[place % groups.length],
    stride: strides[place % strides.length],
    skew: skews[(place + Math.floor(place / 20)) % skews.length],
    patience: patiences[place % patiences.length],
  };
}

function runGroup(views, out, from, to, stride) {
  for (let number = from; number < to; number += 1) {
    copy(views.U8, views.U16, views.U32, views.DV, number * stride, out, number * REGISTERS);
  }
}

function runStep(state, step, copies) {
  const { group, stride, skew, patience } = settingOf(step);
  let noise = ((step + SEED) * 7919 + AGENT * 104729) % 65536;
  for (let place = 0; place * group < copies; place += 1) {
    noise = (noise * 1103515 + 12345) % 65536;
    const met = lineUp(state, place, patience);
    if (AGENT === 0) state.met[place] = met;
    if (skew > 0) delay(state.control, noise % skew);
    runGroup(state.views, state.out, place * group, (place + 1) * group, stride);
  }
}

// Outcomes are counted in a tree with a level for each value.
function count(tally, out, place) {
  let node = tally;
  for (let register = 0; register < REGISTERS; register += 1) {
    const value = out[place + register];
    let next = node.get(value);
    if (next === undefined) {
      next = register + 1 < REGISTERS ? new Map() : { times: 0 };
      node.set(value, next);
    }
    node = next;
  }
  node.times += 1;
}

function flat(node, values) {
  if (node.times !== undefined) return [[values, node.times]];
  return [...node].flatMap(([value, next]) => flat(next, [...values, value]));
}

// Each agent counts the outcomes of its share of the copies, and those in step.
function countStep(state, step, copies) {
  const { group } = settingOf(step);
  let inStep = 0;
  for (let number = AGENT; number < copies; number += AGENTS) {
    count(state.tally, state.out, number * REGISTERS);
    inStep += state.met[Math.floor(number / group)];
  }
  state.inStep += inStep;
  Atomics.add(state.control, IN_STEP, inStep);
}

function viewsOf(shared) {
  return {
    U8: new Uint8Array(shared, COPIES_AT, COPIES_BYTES),
    U16: new Uint16Array(shared, COPIES_AT, COPIES_BYTES >> 1),
    U32: new Uint32Array(shared, COPIES_AT, COPIES_BYTES >> 2),
    DV: new DataView(shared, COPIES_AT, COPIES_BYTES),
  };
}

function stateOf(shared) {
  return {
    control: new Int32Array(shared, 0, CONTROL_WORDS),
    barriers: new Int32Array(shared, BARRIERS_AT, MOST_GROUPS * LINE),
    met: new Int32Array(shared, MET_AT, MOST_GROUPS),
    out: new Uint32Array(shared, RESULTS_AT, COPIES * REGISTERS),
    views: viewsOf(shared),
    tally: new Map(),
    inStep: 0,
    begun: Date.now(),
    stepBegun: 0,
  };
}

// How many copies the next step has, which the first agent says: none once enough were in step or the time is over, and few where
// a step takes long, as on a machine that is busy, so that the time's end isn't missed.
function copiesNext(state, now) {
  const { control, begun, stepBegun } = state;
  state.stepBegun = now;
  if (stepBegun === 0) return FEWEST;
  if (now - begun >= SETTINGS.tried * 1000 || Atomics.load(control, IN_STEP) >= SETTINGS.in_step) return 0;
  return now - stepBegun < LONG ? COPIES : FEWEST;
}

// Runs steps: how many copies they had, or -1 where another agent went wrong.
function runSteps(state) {
  const { control } = state;
  let sum = 0;
  for (let step = 0; ; step += 1) {
    if (AGENT === 0) Atomics.store(control, RUNNING, copiesNext(state, Date.now()));
    if (AGENT === step % AGENTS) {
      state.views.U8.fill(0);
      state.barriers.fill(0);
    }
    if (!meet(control, 2 * step + 1)) return -1;
    const copies = Atomics.load(control, RUNNING);
    if (copies === 0) return sum;
    runStep(state, step, copies);
    if (!meet(control, 2 * step + 2)) return -1;
    countStep(state, step, copies);
    sum += copies;
  }
}

// Writes a line while no other agent writes one: engines don't keep lines of several workers apart.
function sayAlone(control, line) {
  while (Atomics.compareExchange(control, SAYING, 0, 1) !== 0) Atomics.wait(control, SAYING, 1, 10);
  say(line);
  Atomics.store(control, SAYING, 0);
  Atomics.notify(control, SAYING);
}

// The whole of an agent. Its last word says how much it counted, or what went wrong.
function work(shared) {
  const state = stateOf(shared);
  try {
    const copies = runSteps(state);
    if (copies >= 0) {
      const line = { copies: AGENT === 0 ? copies : 0, inStep: state.inStep, seen: flat(state.tally, []) };
      sayAlone(state.control, JSON.stringify(line));
    }
  } catch (error) {
    sayAlone(state.control, JSON.stringify({ wrong: `agent ${AGENT}: ${error}` }));
    Atomics.store(state.control, WRONG, 1);
  }
  Atomics.add(state.control, ENDED, 1);
}
