'use strict';
// Data races: random small programs with add, compareExchanges that fail, accesses of two sizes and stores that nothing reads. What the
// states of interleavings say of each, beside the definition of a data race on all valid executions by brute force, and on all
// interleavings of the code itself, each of which is seen to be a valid execution. Then programs with loops, by hand.

const test = require('node:test');
const assert = require('node:assert');
const { agentsOf, answeredIfTaken, domain, programOf, randomOf } = require('./asking.js');
const { Interleavings } = require('../interleavings.js');
const { hasInterleavedRace, hasRace } = require('./model.js');
const { plant } = require('../trees.js');

const COUNT = Number(process.env.JSLIT_RANDOM || 150);

function sourceOf(random) {
  const pick = (...list) => list[random(list.length)];
  const at = () => random(2);
  const read = () => pick(`x = b[${at()}]`, `x = Atomics.load(b, ${at()})`, `x = Atomics.load(b, ${at()})`,
    `x = Atomics.exchange(b, ${at()}, 1)`, `x = Atomics.add(b, ${at()}, 1) & 3`, `x = Atomics.compareExchange(b, ${at()}, 0, 1)`);
  const write = () => pick(`b[${at()}] = 1`, `Atomics.store(b, ${at()}, 1)`, `Atomics.store(b, ${at()}, 2)`, 'b[3] = x',
    'Atomics.store(w, 0, 1)');
  const body = () => pick(
    `${read()}; if (x ${pick('===', '!==')} ${random(2)}) { ${write()}; } else { ${pick(write(), read(), '')}; }`,
    `${write()}; ${read()}; ${pick('', write())};`,
    `if (Atomics.exchange(b, 0, 1) === 0) { x = b[1]; b[1] = 1; Atomics.store(b, 0, 0); }`,
    `b[1] = 1; Atomics.store(b, 0, 1);`,
    `if (Atomics.load(b, 0) === 1) { x = b[1]; }`);
  return 'const sab = new SharedArrayBuffer(4); const b = new Uint8Array(sab), w = new Uint16Array(sab);\n'
    + `agents({ A() { let x = 0; ${body()} return x; }, B() { let x = 0; ${body()} return x; } });`;
}

// What is told of a program, beside what there is; null where it is refused.
async function tried(source) {
  const answer = await answeredIfTaken(source);
  if (answer === null) return null;
  if (answer.isSequential) assert.ok(answer.ended.every(({ isInterleaved }) => isInterleaved), source);
  const agents = agentsOf(source, true);
  const raced = hasRace(agents.runs, domain, agents.setting.initial, 4);
  const { space, thin, isSown } = answer;
  assert.ok(space.isWhole, source);
  const isTold = space.races.size > 0;
  const isThin = !thin.isNone || isSown;
  assert.equal(hasInterleavedRace(agents.runs, agents.setting.initial), isTold, source);
  if (isTold) assert.ok(raced, `no data race is in\n${source}`);
  else if (!isThin) assert.ok(!raced, `a data race is missed in\n${source}`);
  return { isThin, raced, isTold };
}

test(`${COUNT} programs have a data race where an interleaving comes to one`, async (t) => {
  const all = [];
  for (let seed = 1; seed <= COUNT; seed += 1) all.push(await tried(sourceOf(randomOf(seed * 7 + 3))));
  const seen = all.filter(Boolean);
  const count = (is) => seen.filter(is).length;
  const raced = count((each) => each.raced);
  t.diagnostic(`${seen.length} compared, ${raced} with a data race, ${count(({ isThin }) => isThin)} with values out of thin air`);
  assert.ok(raced > COUNT / 5 && seen.length - raced > COUNT / 5);
});

// Turns of loops that leave nothing behind, ways that a compareExchange leaves, and what nothing reads: whether there is a data race.
const LOCKED = 'while (Atomics.exchange(b, 0, 1)); b[1] += 1';
const PROGRAMS = [
  ['a spin that reads a plain store on the way',
    'A() { while (Atomics.load(b, 0) !== 2); }, B() { b[0] = 1; Atomics.store(b, 0, 2); }', true],
  ['a spin on atomics alone',
    'A() { while (Atomics.load(b, 0) !== 2); return b[1]; }, B() { b[1] = 5; Atomics.store(b, 0, 1); Atomics.store(b, 0, 2); }', false],
  ['a compareExchange that fails isn\'t a store', 'A() { return Atomics.compareExchange(b, 0, 7, 1); }, B() { return b[0]; }', false],
  ['one that may succeed is', 'A() { return Atomics.compareExchange(b, 0, 0, 1); }, B() { return b[0]; }', true],
  ['an add that may have the old value of another',
    'A() { Atomics.add(b, 0, 1); b[1] = 1; }, B() { if (Atomics.add(b, 0, 1) === 1) return b[1]; }', true],
  ['an add that orders', 'A() { b[1] = 1; Atomics.add(b, 0, 1); }, B() { if (Atomics.add(b, 0, 1) === 1) return b[1]; }', false],
  ['stores that nothing reads', 'A() { b[2] = 1; }, B() { b[2] = 2; }', true],
  ['stores that nothing reads, of two sizes through Atomics',
    'A() { Atomics.store(w, 1, 1); }, B() { Atomics.store(b, 2, 2); return 0; }', true],
  ['bytes beside one another', 'A() { b[2] = 1; }, B() { b[3] = 2; }', false],
  ['a lock', `A() { ${LOCKED}; Atomics.store(b, 0, 0); }, B() { ${LOCKED}; Atomics.store(b, 0, 0); }`, false],
  ['a lock that is released by a plain store', `A() { ${LOCKED}; b[0] = 0; }, B() { ${LOCKED}; b[0] = 0; }`, true],
  ['a wake-up orders', 'A() { b[4] = 1; Atomics.notify(i, 0); }, B() { Atomics.wait(i, 0, 0); return b[4]; }', false],
  ['a wake-up orders what comes before the notification alone',
    'A() { Atomics.notify(i, 0); b[4] = 1; }, B() { Atomics.wait(i, 0, 0); return b[4]; }', true],
];
const HEAD = 'const sab = new SharedArrayBuffer(8), b = new Uint8Array(sab), w = new Uint16Array(sab), i = new Int32Array(sab);\n';
for (const [name, agents, wanted] of PROGRAMS) {
  test(name, () => {
    assert.equal(new Interleavings(plant(programOf(`${HEAD}agents({ ${agents} });`))).go().races.size > 0, wanted);
  });
}
