'use strict';
// Waits that nothing ends and loops that go round for ever: programs by hand, and random ones beside all interleavings of their code with
// a queue of their own.

const test = require('node:test');
const assert = require('node:assert');
const { agentsOf, programOf, randomOf } = require('./asking.js');
const { Interleavings } = require('../interleavings.js');
const { writtenBy } = require('./model.js');
const { plant } = require('../trees.js');

const HEAD = 'const m = new Int32Array(new SharedArrayBuffer(16));\n';

// What may have no end: `A waits 3`, by agent and line.
function endlessIn(source) {
  const trees = plant(programOf(source));
  const space = new Interleavings(trees).go();
  assert.ok(space.isWhole, source);
  const told = ({ agent, at, how }) => `${trees.list[agent].name} ${how} ${at.line}`;
  return [...space.hangs.values()].map(({ ends }) => ends.map(told).join(', ')).sort();
}

// What it is, the agents, what may have no end, and what stands before the agents, on a line of its own.
const WAIT = 'const f = () => { Atomics.wait(m, 0, 0); };\n';
const LOCKS = 'const lock = (k) => { while (Atomics.exchange(m, k, 1) === 1); }, unlock = (k) => Atomics.store(m, k, 0);\n';
const PROGRAMS = [
  ['a flag that nobody raises', 'A() { while (Atomics.load(m, 0) === 0); }', ['A spins 2']],
  ['a flag that is raised', 'A() { while (Atomics.load(m, 0) === 0); }, B() { Atomics.store(m, 0, 1); }', []],
  ['a flag that is lowered again', 'A() { while (Atomics.load(m, 0) === 0); }, B() { Atomics.store(m, 0, 1); Atomics.store(m, 0, 0); }',
    ['A spins 2']],
  ['a wait that nobody ends', 'A() { Atomics.wait(m, 0, 0); }', ['A waits 2']],
  ['a wait with a limit', 'A() { Atomics.wait(m, 0, 0, 10); }', []],
  ['a notification that may come too early', 'A() { Atomics.wait(m, 0, 0); }, B() { Atomics.notify(m, 0); }', ['A waits 2']],
  ['a value before the notification', 'A: f, B() { Atomics.store(m, 0, 1); Atomics.notify(m, 0); }', [], WAIT],
  ['the value after the notification', 'A: f, B() { Atomics.notify(m, 0); Atomics.store(m, 0, 1); }', ['A waits 2'], WAIT],
  ['one is woken of two', 'A: f, B: f, C() { Atomics.store(m, 0, 1); Atomics.notify(m, 0, 1); }', ['A waits 2', 'B waits 2'], WAIT],
  ['both are woken', 'A: f, B: f, C() { Atomics.store(m, 0, 1); Atomics.notify(m, 0, 2); }', [], WAIT],
  ['two locks, each in another order', 'A() { lock(0); lock(1); unlock(1); unlock(0); }, B() { lock(1); lock(0); unlock(0); unlock(1); }',
    ['A spins 2, B spins 2'], LOCKS],
  ['two locks in one order', 'A() { lock(0); lock(1); unlock(1); unlock(0); }, B() { lock(0); lock(1); unlock(1); unlock(0); }', [], LOCKS],
  ['a lock that is forgotten', 'A() { lock(); if (m[1] === 0) return; Atomics.store(m, 0, 0); Atomics.notify(m, 0); }, B() { lock(); }',
    ['A waits 2', 'B waits 2'], 'const lock = () => { while (Atomics.compareExchange(m, 0, 0, 1) !== 0) Atomics.wait(m, 0, 1); };\n'],
  ['one that waits again takes the notification of another', 'A: f,\nB() { Atomics.wait(m, 0, 0); }, C() { Atomics.notify(m, 0, 1); }',
    ['A waits 2', 'A waits 2, B waits 4'], 'const f = () => { while (Atomics.load(m, 0) === 0) Atomics.wait(m, 0, 0); };\n'],
  ['each waits for the other', 'A() { Atomics.wait(m, 0, 0); Atomics.store(m, 1, 1); Atomics.notify(m, 1); },\n'
    + 'B() { Atomics.wait(m, 1, 0); Atomics.store(m, 0, 1); Atomics.notify(m, 0); }', ['A waits 2, B waits 3']],
];
for (const [name, agents, wanted, before = ''] of PROGRAMS) {
  test(name, () => assert.deepEqual(endlessIn(`${HEAD}${before}agents({ ${agents} });`), wanted));
}

function sourceOf(random) {
  const pick = (...list) => list[random(list.length)];
  const at = () => random(2);
  const act = () => pick(`Atomics.wait(m, ${at()}, 0)`, `Atomics.store(m, ${at()}, 1)`, `Atomics.notify(m, ${at()})`,
    `Atomics.notify(m, ${at()}, 1)`, `Atomics.add(m, ${at()}, 1)`, `if (Atomics.load(m, ${at()}) === 0) Atomics.wait(m, ${at()}, 0)`,
    `Atomics.wait(m, ${at()}, 1)`);
  const agent = (name) => `${name}() {\n${act()};\n${act()};\n${pick('', `${act()};`)}\n}`;
  return `${HEAD}agents({ ${[agent('A'), agent('B'), agent('C')].slice(0, 2 + random(2)).join(', ')} });`;
}

// The same by all interleavings of the code, each access by each, without trees.
function hangsOf(source) {
  const { names, runs } = agentsOf(source, true);
  const found = new Set();
  const seen = new Set();
  const nextOf = ({ last, done }) => last.events[done];
  const asleep = (agent) => nextOf(agent)?.op === 'wake' && !agent.isWoken;
  const go = (agents, memory, queue) => {
    const key = JSON.stringify([agents.map(({ values, done, isWoken }) => [values, done, isWoken]), [...memory], queue]);
    if (seen.has(key)) return;
    seen.add(key);
    const open = agents.map((_, place) => place).filter((place) => nextOf(agents[place]) && !asleep(agents[place]));
    const stuck = agents.flatMap((agent, place) => (asleep(agent) ? [`${names[place]} waits ${nextOf(agent).at.line}`] : []));
    if (open.length === 0 && stuck.length) found.add(stuck.join(', '));
    for (const place of open) {
      const agent = agents[place];
      const event = nextOf(agent);
      const cell = `${event.block} ${event.first}`;
      const made = new Map(memory);
      const others = agents.map((each) => ({ ...each }));
      let waiting = queue;
      let values = agent.values;
      if (event.op === 'wake') values = [...values, 1];
      else if (event.op !== 'write') {
        const got = memory.get(cell) ?? 0;
        const written = writtenBy({ ...event, got });
        if (written !== null) made.set(cell, written);
        values = [...values, got];
      } else if (event.notifies !== undefined) {
        const woken = queue.filter((each) => nextOf(agents[each]).first === event.first).slice(0, event.notifies);
        woken.forEach((each) => { others[each].isWoken = true; });
        waiting = queue.filter((each) => !woken.includes(each));
      } else made.set(cell, event.value);
      const moved = { values, done: agent.done + 1, last: runs[place](values), isWoken: false };
      others[place] = moved;
      go(others, made, asleep(moved) ? [...waiting, place] : waiting);
    }
  };
  go(runs.map((run) => ({ values: [], done: 0, last: run([]), isWoken: false })), new Map(), []);
  return [...found].sort();
}

test('random waits and notifications', (t) => {
  let some = 0;
  for (let seed = 1; seed <= 60; seed += 1) {
    const source = sourceOf(randomOf(seed * 5 + 2));
    const wanted = hangsOf(source);
    assert.deepEqual(endlessIn(source), wanted, source);
    if (wanted.length) some += 1;
  }
  t.diagnostic(`60 compared, ${some} may wait for ever`);
});
