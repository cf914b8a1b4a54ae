'use strict';
// Examples: of random small programs, and of some samples, each step by step beside the code itself, which has to do just these steps and
// come to this outcome; and as an execution that is valid by brute force, with the sources that are told. So are those of data races.

const test = require('node:test');
const assert = require('node:assert');
const { SAMPLES, agentsOf, answeredIfTaken, askWhy, randomOf, tellOf } = require('./asking.js');
const { Execution } = require('./model.js');
const { Details } = require('../details.js');
const { placesOf } = require('../sources.js');

const COUNT = Number(process.env.JSLIT_RANDOM || 40);
const LOOKED_AT = ['dekker', 'mailbox', 'initial', 'getter', 'tas-lock', 'seqlock'];

function sourceOf(random) {
  const pick = (...list) => list[random(list.length)];
  const value = () => pick('1', '2', '(x + 1) & 3');
  const at = () => random(3);
  const read = () => pick(`x = b[${at()}]`, `x = Atomics.load(b, ${at()})`, `x = Atomics.exchange(b, ${at()}, ${value()})`, 'x = w[0] & 3',
    `x = Atomics.add(b, ${at()}, 1) & 3`, `x = Atomics.compareExchange(b, ${at()}, ${random(2)}, ${value()})`);
  const write = () => pick(`b[${at()}] = ${value()}`, `Atomics.store(b, ${at()}, ${value()})`, 'w[0] = 0x0201', 'b[3] = x');
  const agent = (name) => `${name}() { let x = 0;\n${read()};\nconst y = x;\nif (x ${pick('===', '!==')} ${random(2)}) { ${write()}; } `
    + `else { ${pick(write(), read())}; }\nreturn [y, x]; }`;
  return 'const sab = new SharedArrayBuffer(4); const b = new Uint8Array(sab), w = new Uint16Array(sab);\n'
    + `b[0] = ${random(2)};\nagents({ ${agent('A')}, ${agent('B')} });`;
}

// Whether the agents of the code, given the values of the steps, do these steps.
function followed(steps, { names, runs, setting }, isWhole) {
  const own = names.map((name) => steps.filter(({ agent }) => agent === name));
  const ways = own.map((list, place) => {
    const run = runs[place](list.filter(({ reads }) => reads !== undefined).map(({ reads }) => Number(reads)));
    const events = run.events.filter(({ op }) => op !== 'choice').slice(0, isWhole ? undefined : list.length);
    assert.deepEqual(events.map(({ at }) => at.line), list.map(({ line }) => line));
    return { ...run, events };
  });
  const execution = new Execution(ways, setting.initial);
  const numberOf = ({ agent, place }) => execution.events.findIndex((event) => event.agent === agent && event.place === place);
  const placed = steps.map((step) => {
    const agent = names.indexOf(step.agent);
    return { agent, place: own[agent].indexOf(step) };
  });
  const sources = execution.byteReads.map(({ number, byte }) => {
    const event = execution.events[number];
    const step = own[event.agent][event.place];
    const from = step.from.find(({ bytes }) => bytes === null || (bytes[0] <= byte - event.first && byte - event.first <= bytes[1]));
    return from.start ? execution.events.findIndex((each) => each.op === 'init' && each.block === event.block && each.first === byte)
      : numberOf(placed[from.step]);
  });
  const isGiven = execution.byteReads.every((each, place) => execution.candidates(each).includes(sources[place]));
  assert.ok(isGiven && execution.isValid(sources), JSON.stringify(steps));
  return { ways, isRacing: execution.isRacing(sources) };
}

async function look(source, main = 'main.js') {
  const answer = await answeredIfTaken(source, main);
  if (answer === null) return { examples: 0, races: 0 };
  const details = new Details(answer, { program: answer.program, name: 'it', answer, asKnown: placesOf(main, null),
    asking: { ask: askWhy }, asked: null });
  const agents = agentsOf(source, false, main);
  const tell = tellOf(agents.names);
  for (const [place, example] of (await details.examples(true)).entries()) {
    const { ways } = followed(example.steps, agents, true);
    assert.equal(tell(ways), answer.outcomes[place].text);
  }
  const races = await details.races();
  for (const { steps, pair } of races.pairs) {
    assert.ok(followed(steps, agents, false).isRacing, source);
    assert.deepEqual(pair.map(({ line }) => line).sort(), steps.slice(-2).map(({ line }) => line).sort());
  }
  return { examples: answer.outcomes.length, races: races.pairs.length };
}

test(`the examples of ${COUNT} programs`, async (t) => {
  const sums = { programs: 0, examples: 0, races: 0 };
  for (let seed = 1; seed <= COUNT; seed += 1) {
    const { examples, races } = await look(sourceOf(randomOf(seed * 11 + 5)));
    sums.programs += examples > 0 ? 1 : 0;
    sums.examples += examples;
    sums.races += races;
  }
  t.diagnostic(`${sums.programs} of ${COUNT} programs, ${sums.examples} examples, ${sums.races} data races`);
  assert.ok(sums.examples > COUNT && sums.races > COUNT / 4);
});

for (const { name, source } of SAMPLES.filter((each) => LOOKED_AT.includes(each.name))) {
  test(`the examples of ${name}`, async () => assert.ok((await look(source, `${name}.js`)).examples > 0));
}
