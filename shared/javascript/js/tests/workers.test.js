'use strict';
// The samples on real workers of Node: nothing is seen that isn't told.

const test = require('node:test');
const assert = require('node:assert');
const { SAMPLES, answered, textsOf } = require('./asking.js');
const { seen } = require('../real.js');

const TIMES = Number(process.env.JSLIT_TIMES || 300);   // how often each is run
const PATIENCE = 15;                                    // seconds for all of them
// Those that may wait for ever, or whose whole answer takes long.
const LEFT_OUT = new Set(['audioworklet', 'parlib-lock', 'treiber', 'vyukov', 'mdn-wait', 'ring-of-sizes', 'ring-of-atomics']);

test('samples on real workers', async (t) => {
  const { shown } = require('../values.js');
  const said = [];
  for (const { name, source } of SAMPLES) {
    if (LEFT_OUT.has(name) || !source.includes('agents({')) continue;
    const made = await seen({ source: source.replace(/^export /gm, ''), times: TIMES, patience: PATIENCE });
    if (made.results === null) {
      said.push(`${name} (not in time)`);
      continue;
    }
    const told = textsOf(await answered(source));
    const texts = new Set(Array.from({ length: TIMES }, (_, time) => made.names.map((agent, place) => {
      const { value, threw } = made.results[place][time];
      return threw ? `${agent}: throws ${threw}` : value.type === 'undefined' ? '' : `${agent}: ${shown(value)}`;
    }).filter(Boolean).join('   ')));
    for (const text of texts) assert.ok(told.has(text || '(nothing is returned or printed)') || told.has(text),
      `${name}: ${text} was seen and isn't told`);
    said.push(`${name} ${texts.size} of ${told.size}`);
  }
  t.diagnostic(said.join(', '));
  assert.ok(said.filter((each) => !each.endsWith('time)')).length >= 15, said.join());
});
