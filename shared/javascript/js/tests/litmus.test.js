'use strict';
// The tests of litmus/ as the JavaScript that jslit-engine runs, and back: the same outcomes and data races, or refused as too large.

const fs = require('fs');
const path = require('path');
const test = require('node:test');
const assert = require('node:assert');
const { execFileSync } = require('child_process');
const { agentCode, conditionCode } = require('../../code.js');
const { registersOf } = require('../../text/tests.js');
const { answered, ask } = require('./asking.js');
const { Refusal } = require('../refusal.js');

const FOLDER = path.resolve(__dirname, '..', '..', '..', '..', 'litmus');
const TOO_LARGE = /more than (8 values|24 accesses)|bytes of shared memory, and 32|more than [\d,]+ ways|too many/;
const MOST_REFUSED = 6;
const TEXT = process.env.JSLIT_TEXT || path.resolve(__dirname, '..', '..', '..', '..', 'bin', 'jslit-text');
const readTest = (text) => JSON.parse(execFileSync(TEXT, [], { input: text })).test;

function sourceOf(litmus) {
  const agents = litmus.agents.map(({ name }, place) =>
    `${name}() { ${agentCode(litmus, place)}\nconst out = {}; copy(U8, U16, U32, DV, 0, out, 0); return out; }`);
  return `const sab = new SharedArrayBuffer(${litmus.bytes});
const U8 = new Uint8Array(sab), U16 = new Uint16Array(sab, 0, ${litmus.bytes >> 1}), U32 = new Uint32Array(sab, 0, ${litmus.bytes >> 2});
const DV = new DataView(sab);
agents({ ${agents.join(',\n')} });`;
}

// The values of the registers, in their order, of each outcome.
const valuesIn = ({ ended }, count) => new Set(ended.map(({ leaves }) => {
  const values = Array(count).fill(0);
  for (const { value } of leaves) for (const [place, data] of value.items) values[Number(place)] = Number(data.value);
  return values.join(' ');
}));

const verdictOf = (litmus, outcomes) => {
  const meets = new Function('seen', `return ${conditionCode(litmus)};`);
  const good = [...outcomes].filter((text) => meets(text.split(' ').map(Number))).length;
  return good === 0 ? 'never' : good === outcomes.size ? 'always' : 'sometimes';
};

test('litmus/ through JavaScript and back', async (t) => {
  const refused = [];
  const others = [];
  const files = fs.readdirSync(FOLDER).filter((each) => each.endsWith('.lit'));
  for (const file of files) {
    const text = fs.readFileSync(path.join(FOLDER, file), 'latin1');
    const litmus = readTest(text);
    const report = await ask(text);
    try {
      const answer = await answered(sourceOf(litmus));
      const told = valuesIn(answer, registersOf(litmus).length);
      assert.deepEqual([...told].sort(), report.outcomes.map((values) => values.join(' ')).sort(), file);
      // The data race that is said of the code is that of the text.
      if (answer.space.races.size || answer.isSequential) assert.equal(answer.space.races.size > 0, report.race, file);
      else others.push(file);
      assert.equal(verdictOf(litmus, told), /expect: verdict (\w+)/.exec(text)[1], file);
    } catch (error) {
      if (!(error instanceof Refusal)) throw error;
      assert.match(error.message, TOO_LARGE, file);
      refused.push(file);
    }
  }
  t.diagnostic(`${files.length - refused.length} of ${files.length} the same, refused as too large: ${refused.join(', ') || 'none'}, `
    + `data races told apart: ${others.join(', ') || 'none'}`);
  assert.ok(refused.length <= MOST_REFUSED, refused.join());
});
