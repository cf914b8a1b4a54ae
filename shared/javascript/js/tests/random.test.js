'use strict';
// Random programs with arithmetic, branches, loops, read-modify-writes and mixed sizes: no interleaving of the code itself shows an
// outcome that isn't told; of programs whose accesses are all atomic and of one size, the interleavings show just those that are. Where no
// interleaving has a data race, the outcomes by texts are those that are told without any.

const test = require('node:test');
const assert = require('node:assert');
const { agentsOf, answeredIfTaken, answeredInTurn, everyInterleaving, interleaving, randomOf, textsOf } = require('./asking.js');

const COUNT = Number(process.env.JSLIT_RANDOM || 150);   // programs of each kind
const TRIES = 40;                                  // interleavings of a program of mixed sizes
const MOST = 4000;

// A program; `isMixed` says whether its accesses are of several sizes and plain ones too.
class Writer {
  constructor(random, isMixed) {
    Object.assign(this, { random, isMixed, reads: 0 });
  }

  pick(...list) {
    return list[this.random(list.length)];
  }

  place() {
    const view = this.isMixed ? this.pick('b', 'b', 's', 'w', 'i') : 'b';
    return [view, view === 'i' ? 0 : this.random(2)];
  }

  value() {
    return this.pick('1', '2', 'x', 'x + 1', 'x * 2', '-x', '(x ^ 3)', 'x > 1 ? 3 : 1');
  }

  read() {
    this.reads += 1;
    const [view, at] = this.place();
    if (this.isMixed && this.random(2)) return `x = ${view}[${at}]`;
    return this.pick(`x = Atomics.load(${view}, ${at})`, `x = Atomics.load(${view}, ${at})`,
      `x = Atomics.exchange(${view}, ${at}, ${this.value()})`,
      `x = Atomics.${this.pick('add', 'sub', 'or', 'xor', 'and')}(${view}, ${at}, ${this.pick('1', '2', 'x')})`,
        `x = Atomics.compareExchange(${view}, ${at}, ${this.pick('0', '1', 'x')}, ${this.value()})`);
  }

  write() {
    const [view, at] = this.place();
    return this.isMixed && this.random(2) ? `${view}[${at}] = ${this.value()}` : `Atomics.store(${view}, ${at}, ${this.value()})`;
  }

  statement(depth) {
    const kind = this.random(depth > 1 ? 4 : 7);
    if (kind < 2) return `${this.read()}; out.push(x);`;
    if (kind < 4) return `${this.write()};`;
    if (kind === 4) {
      return `if (x ${this.pick('===', '>', '!==')} ${this.random(2)}) { ${this.statement(depth + 1)} } `
        + `else { ${this.statement(depth + 1)} }`;
    }
    if (kind === 5) return `for (let k = 0; k < 2; k += 1) { ${this.statement(depth + 2)} }`;
    return `while (Atomics.load(b, 3) === ${this.random(3) ? 1 : 'x - x + 1'}) { x = b[3] & 0; }`;
  }

  source() {
    const agents = ['A', 'B'].map((name) =>
      `${name}() { let x = 0; const out = []; ${Array.from({ length: 2 }, () => this.statement(0)).join(' ')} return out; }`);
    return `const sab = new SharedArrayBuffer(8);
const b = new Uint8Array(sab), s = new Int8Array(sab), w = new Uint16Array(sab), i = new Int32Array(sab);
b[1] = ${this.random(3)};\nagents({ ${agents.join(',\n')} });`;
  }
}

async function tried(isMixed) {
  let compared = 0;
  let inTurn = 0;
  for (let seed = 1; seed <= COUNT; seed += 1) {
    const random = randomOf(seed * 2 + (isMixed ? 1 : 0));
    const source = new Writer(random, isMixed).source();
    const answer = await answeredIfTaken(source);
    if (answer === null) continue;
    const told = textsOf(answer);
    compared += 1;
    const alone = answeredInTurn(source);
    if (alone) {
      assert.deepEqual([...alone].sort(), [...told].sort(), `seed ${seed}:\n${source}`);
      inTurn += 1;
    }
    const agents = agentsOf(source, true);
    if (isMixed) {
      for (let times = 0; times < TRIES; times += 1) {
        const text = interleaving(agents, random);
        if (text !== null) assert.ok(told.has(text), `seed ${seed}: ${text} is missing of\n${source}\n${[...told].join('\n')}`);
      }
    } else {
      const shown = everyInterleaving(agents, MOST);
      if (shown !== null) assert.deepEqual([...told].sort(), [...shown].sort(), `seed ${seed}:\n${source}`);
    }
  }
  assert.ok(compared >= 0.9 * COUNT, `${COUNT - compared} of ${COUNT} are refused`);
  return `${compared} compared, ${inTurn} of them without texts`;
}

test(`${COUNT} programs of atomics of one size have just the outcomes of their interleavings`,
  async (t) => { t.diagnostic(await tried(false)); });
test(`${COUNT} programs of mixed sizes, plain and atomic, have all outcomes of their interleavings`,
  async (t) => { t.diagnostic(await tried(true)); });
