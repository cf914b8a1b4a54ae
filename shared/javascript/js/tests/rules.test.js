'use strict';
// The rules of the translation: small programs, each with the outcomes of the model by brute force, beside what the program says of
// the texts. docs/JAVASCRIPT.md states the rules.

const test = require('node:test');
const assert = require('node:assert');
const { agentsOf, answered, tellOf, textsOf } = require('./asking.js');
const { hasRace, outcomesOf } = require('./model.js');

const HEAD = 'const sab = new SharedArrayBuffer(16), b = new Uint8Array(sab), w = new Uint16Array(sab), i = new Int32Array(sab), '
  + 's = new Int8Array(sab), d = new DataView(sab);\n';
const values = (...list) => (event) => (event.op === 'choice' ? Array.from({ length: event.count }, (_, place) => place) : list);

// Whether the answer has just the outcomes that the model allows where reads have these values, in each byte of their ranges; and,
// apart from these, whether a data race that is told is one of the model's.
async function same(body, list, setup = '', allTurns = false) {
  const source = `${HEAD}${setup}\nagents({ ${body} });`;
  const answer = await answered(source);
  const agents = agentsOf(source, allTurns);
  const wanted = outcomesOf(agents.runs, values(...list), agents.setting.initial, tellOf(agents.names), allTurns ? 4 : 8);
  assert.deepEqual([...textsOf(answer)].sort(), [...wanted].sort());
  if (answer.race) assert.ok(hasRace(agents.runs, values(...list), agents.setting.initial, allTurns ? 4 : 8), `no data race is in ${body}`);
  return answer;
}

test('the model by brute force allows what is known of store buffering and message passing', async () => {
  const sb = await same(
    'A() { Atomics.store(b, 0, 1); return Atomics.load(b, 1); }, B() { Atomics.store(b, 1, 1); return Atomics.load(b, 0); }', [0, 1]);
  assert.equal(sb.outcomes.length, 3);
  const plain = await same('A() { b[0] = 1; return b[1]; }, B() { b[1] = 1; return b[0]; }', [0, 1]);
  assert.equal(plain.outcomes.length, 4);
  const mp = await same('A() { b[0] = 1; Atomics.store(b, 1, 1); }, B() { return [Atomics.load(b, 1), b[0]]; }', [0, 1]);
  assert.equal(mp.outcomes.length, 3);
});

test('a read that is dropped loses no outcome: a loop that looks again', async () => {
  await same('A() { b[1] = 1; Atomics.store(b, 0, 1); }, B() { while (Atomics.load(b, 0) === 0); return b[1]; }', [0, 1], '', true);
  await same('A() { b[1] = 1; b[0] = 1; }, B() { while (b[0] === 0); return b[1]; }', [0, 1], '', true);
  await same('A() { while (Atomics.exchange(b, 0, 1) === 1); b[1] += 1; Atomics.store(b, 0, 0); return b[1]; }, '
    + 'B() { return [Atomics.load(b, 0), b[1]]; }', [0, 1], '', true);
});

test('add is a load and a compareExchange of what was seen', async () => {
  await same('A() { return Atomics.add(b, 0, 1); }, B() { return Atomics.add(b, 0, 1); }', [0, 1, 2]);
  await same('A() { return Atomics.add(b, 0, 1); }, B() { b[0] = 3; return b[0]; }', [0, 1, 3, 4]);
  await same('A() { b[1] = 1; return Atomics.sub(b, 0, 1); }, B() { return [Atomics.or(b, 0, 2), b[1]]; }', [0, 1, 2, 3, 255]);
  await same('A() { return Atomics.xor(b, 0, 3); }, B() { return Atomics.and(b, 0, 1); }, C() { Atomics.store(b, 0, 2); }', [0, 1, 2, 3]);
});

test('initial contents by xor', async () => {
  await same('A() { b[0] = 7; return b[1]; }, B() { b[1] = 5; return b[0]; }', [3, 7, 9, 5], 'b[0] = 3; b[1] = 9;');
  await same('A() { return Atomics.compareExchange(b, 0, 3, 4); }, B() { return Atomics.compareExchange(b, 0, 3, 5); }', [3, 4, 5],
    'b[0] = 3;');
  await same('A() { w[0] = 0x0201; }, B() { const r = b[0]; return r === 5 ? b[1] : r; }', [5, 6, 1, 2], 'b[0] = 5; b[1] = 6;');
  await same('A() { if (b[0] === 3) b[1] = 1; }, B() { return b[1] === 2 ? b[2] : w[1]; }', [0, 1, 2, 3, 4],
    'b[0] = 3; b[1] = 2; b[2] = 4;');
  await same('A() { b[0] = 1; }, B() { return [w[0], b[0]]; }', [1, 0x0203, 0x0201, 3], 'b[0] = 3; b[1] = 2;');
});

test('a word as one byte: values that differ from the initial one in one byte', async () => {
  await same('A() { i[0] = 1; }, B() { i[0] = 2; return i[0]; }', [0, 1, 2]);
  await same('A() { w[0] = 0x0105; }, B() { w[0] = 0x0205; return w[0]; }', [5, 0x0105, 0x0205], 'w[0] = 5;');
  await same('A() { d.setUint16(0, 1, true); }, B() { return d.getUint16(0, true); }, C() { d.setUint16(0, 2, true); }', [0, 1, 2]);
});

test('a word as one byte: its data races are a claim apart', async () => {
  const raced = await same('A() { i[0] = 1; }, B() { i[0] = 2; }, C() { return i[0]; }', [0, 1, 2]);
  assert.equal(raced.race, true);
  const ordered = await same('A() { i[0] = 1; Atomics.store(b, 8, 1); }, B() { return Atomics.load(b, 8) === 1 ? i[0] : -1; }', [0, 1]);
  assert.equal(ordered.race, false);
  const atomic = await same('A() { Atomics.store(w, 0, 0x0102); }, B() { return Atomics.load(w, 0); }', [0, 0x0102]);
  assert.equal(atomic.race, false);
});

test('a word as one byte: atomics alone, numbered', async () => {
  await same('A() { Atomics.store(w, 0, 0x0102); return Atomics.load(w, 0); }, '
    + 'B() { Atomics.store(w, 0, 0x0301); return Atomics.load(w, 0); }', [0, 0x0102, 0x0301]);
  await same('A() { return Atomics.exchange(w, 0, -1); }, B() { return Atomics.compareExchange(w, 0, -1, 258); }', [0, 0xffff, 258]);
});

test('words that are torn keep their bytes', async () => {
  const torn = await same('A() { d.setUint16(0, 0x0101, true); }, B() { return d.getUint16(0, true); }', [0, 1, 0x0100, 0x0101]);
  assert.equal(torn.outcomes.length, 4);
  await same('A() { w[0] = 0x0101; }, B() { return w[0]; }, C() { w[0] = 0x0202; }',
    [0, 1, 2, 0x0100, 0x0101, 0x0102, 0x0200, 0x0201, 0x0202]);
});

test('values out of thin air: rings through plain accesses, and through atomics of unequal ranges', async () => {
  const plain = 'left() { const r = b[0]; if (r === 1) w[2] = 1; return r; }, right() { const r = b[4]; if (r === 1) w[0] = 1; return r; }';
  assert.equal((await same(plain, [0, 1])).outcomes.length, 2);
  const atomic = 'left() { const r = Atomics.load(b, 0); if (r === 1) Atomics.store(w, 2, 1); return r; }, '
    + 'right() { const r = Atomics.load(b, 4); if (r === 1) Atomics.store(w, 0, 1); return r; }';
  assert.equal((await same(atomic, [0, 1])).outcomes.length, 2);
  const equal = 'left() { const r = Atomics.load(b, 0); if (r === 1) Atomics.store(b, 1, 1); return r; }, '
    + 'right() { const r = Atomics.load(b, 1); if (r === 1) Atomics.store(b, 0, 1); return r; }';
  assert.equal((await same(equal, [0, 1])).outcomes.length, 1);
  await same('A() { const r = b[0]; if (r === 42) b[1] = 42; return r; }, '
    + 'B() { const r = b[1]; if (r > 40) b[2] = 42; return r; }, C() { const r = b[2]; if (r === 42) b[0] = r; return r; }', [0, 42]);
  await same('A() { const r = b[0]; if (r === 7) Atomics.store(b, 1, 7); return r; }, '
    + 'B() { const r = Atomics.load(b, 1); if (r === 7) b[0] = 7; return r; }', [0, 7]);
});

test('values that are copied round are told', async () => {
  const { thin, outcomes } = await answered(
    `${HEAD}agents({ A() { const r = b[0]; b[1] = r; return r; }, B() { const r = b[1]; b[0] = r; return r; } });`);
  assert.match(thin.notes[0], /may have any value, out of thin air/);
  assert.ok(outcomes.some(({ text }) => text === 'A: 1   B: 1'));
});

test('a loop that writes what it reads, beside a plain store', async () => {
  const lock = (release) => answered(
    `${HEAD}const f = () => { while (Atomics.exchange(b, 0, 1) === 1); ${release}; };\nagents({ A: f, B: f });`);
  assert.match([...(await lock('b[0] = 0')).program.notes.keys()][0], /two of its turns are followed/);
  assert.equal((await lock('Atomics.store(b, 0, 0)')).program.notes.size, 0);
});
