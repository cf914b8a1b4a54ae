'use strict';
// Each sample beside random interleavings of its own code, in which every turn of a loop is made: no outcome is missing.

const test = require('node:test');
const assert = require('node:assert');
const { SAMPLES, agentsOf, answeredIfTaken, interleaving, randomOf, textsOf } = require('./asking.js');

const TRIES = 30;
const STEPS = 120;   // accesses of one, before it is given up
const LEFT_OUT = new Set(['vyukov']);   // its answer takes long, and stands in samples.test.js

for (const { name, source } of SAMPLES.filter((each) => !LEFT_OUT.has(each.name))) {
  test(name, async (t) => {
    const answer = await answeredIfTaken(source, `${name}.js`);
    if (answer === null) return t.diagnostic('refused');
    const told = textsOf(answer);
    const agents = agentsOf(source, true, `${name}.js`);
    const random = randomOf(7);
    const shown = new Set();
    for (let times = 0; times < TRIES; times += 1) {
      const text = interleaving(agents, random, STEPS);
      if (text !== null) shown.add(text);
    }
    for (const text of shown) assert.ok(told.has(text), `${text} is missing`);
    t.diagnostic(`${shown.size} of ${told.size} shown`);
  });
}
