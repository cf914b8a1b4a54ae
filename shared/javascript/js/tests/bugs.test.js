'use strict';
// Bugs of shared memory: each is found, and its mended form passes.

const test = require('node:test');
const assert = require('node:assert');
const { answered } = require('./asking.js');

const HEAD = `const sab = new SharedArrayBuffer(16);
const m = new Int32Array(sab), b = new Uint8Array(sab), w = new Uint16Array(sab), d = new DataView(sab);
`;
// What it is, a check, the code, what is wrong in it, and what that has to be.
const BUGS = [
  ['a flag that is written plainly', 'B === 42', `
agents({ A() { m[0] = 42; m[1] = 1; }, B() { return Atomics.load(m, 1) ? m[0] : 42; } });`,
  'm[1] = 1', 'Atomics.store(m, 1, 1)'],
  ['a flag that is read plainly', 'B === 42', `
agents({ A() { m[0] = 42; Atomics.store(m, 1, 1); }, B() { return m[1] ? m[0] : 42; } });`,
  'm[1] ?', 'Atomics.load(m, 1) ?'],
  ['a counter that isn\'t atomic', 'A !== B', `
const count = () => Atomics.store(m, 0, Atomics.load(m, 0) + 1);
agents({ A: count, B: count });`,
  'Atomics.store(m, 0, Atomics.load(m, 0) + 1)', 'Atomics.add(m, 0, 1) + 1'],
  ['a lock that looks and then takes', '!(A && B)', `
function take() {
  if (Atomics.load(m, 0) === 1) return false;
  Atomics.store(m, 0, 1);
  return true;
}
agents({ A: take, B: take });`,
  'if (Atomics.load(m, 0) === 1)', 'if (Atomics.exchange(m, 0, 1) === 1)'],
  ['a lock that is released too early', 'A !== B', `
function work() {
  while (Atomics.compareExchange(m, 0, 0, 1) !== 0);
  const before = m[1];
  Atomics.store(m, 0, 0); m[1] = before + 1;
  return before;
}
agents({ A: work, B: work });`,
  'Atomics.store(m, 0, 0); m[1] = before + 1;', 'm[1] = before + 1; Atomics.store(m, 0, 0);'],
  ['Dekker\'s flags through a plain store', 'A === 1 || B === 1', `
agents({ A() { m[0] = 1; return Atomics.load(m, 1); }, B() { Atomics.store(m, 1, 1); return Atomics.load(m, 0); } });`,
  'm[0] = 1', 'Atomics.store(m, 0, 1)'],
  ['a word that is torn', 'B === 0 || B === 0x0101', `
agents({ A() { d.setInt16(0, 0x0101); }, B() { return d.getInt16(0); } });`,
  'd.setInt16(0, 0x0101); }, B() { return d.getInt16(0)', 'Atomics.store(w, 0, 0x0101); }, B() { return Atomics.load(w, 0)'],
  ['an index that is published before its element', 'B === 5', `
agents({ A() { Atomics.store(m, 1, 1); m[0] = 5; }, B() { return Atomics.load(m, 1) === 1 ? m[0] : 5; } });`,
  'Atomics.store(m, 1, 1); m[0] = 5;', 'm[0] = 5; Atomics.store(m, 1, 1);'],
  ['a reader that doesn\'t look at the number again', 'B[0] === B[1]', `
agents({
  A() { Atomics.store(m, 0, 1); Atomics.store(m, 1, 1); Atomics.store(m, 2, 1); Atomics.store(m, 0, 2); },
  B() { const seen = Atomics.load(m, 0); const both = [Atomics.load(m, 1), Atomics.load(m, 2)]; return seen % 2 === 0 ? both : [0, 0]; },
});`,
  'seen % 2 === 0 ?', 'seen % 2 === 0 && Atomics.load(m, 0) === seen ?'],
  ['a word that overwrites the byte of another', 'B === 0 || B === 3', `
agents({ A() { Atomics.store(b, 0, 3); Atomics.store(w, 0, 1); }, B() { return Atomics.load(w, 0) & 255; } });`,
  'Atomics.store(w, 0, 1)', 'Atomics.or(w, 0, 1)'],
];

for (const [name, check, code, wrong, right] of BUGS) {
  test(`found: ${name}`, async () => {
    assert.ok(code.includes(wrong));
    assert.equal((await answered(`${HEAD}${code}\n// check: ${check}`)).verdict, 'sometimes');
    assert.equal((await answered(`${HEAD}${code.replace(wrong, right)}\n// check: ${check}`)).verdict, 'always');
  });
}
