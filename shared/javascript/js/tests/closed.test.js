'use strict';
// Closed means complete, with texts that are split: random small programs, whose bytes have four values each, and each of whose texts
// may have two combinations of paths alone, beside the model by brute force over all these values. A data race that is told is one
// of the model's.

const limits = require('../../../limits.json');

limits.combinations = 2;

const test = require('node:test');
const assert = require('node:assert');
const { agentsOf, answeredIfTaken, domain, randomOf, tellOf, textsOf } = require('./asking.js');
const { hasRace, outcomesOf } = require('./model.js');

const COUNT = Number(process.env.JSLIT_RANDOM || 120);

function sourceOf(random) {
  const pick = (...list) => list[random(list.length)];
  const value = () => pick('1', '2', 'x', '(x + 1) & 3', '(x ^ 1) & 3', 'x > 1 ? 3 : 1');
  const read = () => pick(`x = b[${random(2)}]`, `x = Atomics.load(b, ${random(2)})`, `x = Atomics.exchange(b, ${random(2)}, ${value()})`,
    `x = Atomics.add(b, ${random(2)}, 1) & 3`, `x = Atomics.compareExchange(b, ${random(2)}, ${random(2)}, ${value()})`);
  const write = () => pick(`b[${random(2)}] = ${value()}`, `Atomics.store(b, ${random(2)}, ${value()})`, 'w[0] = 0x0201',
    'Atomics.store(w, 0, 0x0102)');
  const agent = (name) => `${name}() { let x = 0; ${read()}; const y = x; if (x ${pick('===', '!==')} ${random(3)}) { ${write()}; } `
    + `else { ${pick(write(), read())}; } return [y, x]; }`;
  return 'const sab = new SharedArrayBuffer(4); const b = new Uint8Array(sab), w = new Uint16Array(sab);\n'
    + `b[0] = ${random(2)};\nagents({ ${agent('A')}, ${agent('B')} });`;
}

// {texts, isThin, raced, told} of a program, or null where it is refused.
async function tried(source) {
  const answer = await answeredIfTaken(source);
  if (answer === null) return null;
  const agents = agentsOf(source, true);
  const wanted = outcomesOf(agents.runs, domain, agents.setting.initial, tellOf(agents.names), 4);
  const told = textsOf(answer);
  const isThin = answer.thin.notes.length > 0;
  for (const text of told) assert.ok(wanted.has(text), `${text} is no outcome of\n${source}`);
  if (!isThin) for (const text of wanted) assert.ok(told.has(text), `${text} is missing of\n${source}`);
  if (answer.isSequential) assert.ok(answer.ended.every(({ isInterleaved }) => isInterleaved), source);
  const raced = hasRace(agents.runs, domain, agents.setting.initial, 4);
  if (answer.race) assert.ok(raced, `no data race is in\n${source}`);
  return { texts: answer.texts.made.length, isThin, raced, told: answer.race };
}

test(`${COUNT} programs, split and united, have just the outcomes of the model by brute force`, async (t) => {
  const all = [];
  for (let seed = 1; seed <= COUNT; seed += 1) all.push(await tried(sourceOf(randomOf(seed * 3 + 1))));
  const seen = all.filter(Boolean);
  const count = (is) => seen.filter(is).length;
  t.diagnostic(`${count(({ isThin }) => !isThin)} compared, ${count(({ texts }) => texts > 1)} of several texts, `
    + `${count(({ raced }) => raced)} with a data race, of which ${count(({ told }) => told)} are told`);
  assert.ok(count(({ isThin }) => !isThin) > COUNT / 2 && count(({ texts }) => texts > 1) > COUNT / 4);
});
