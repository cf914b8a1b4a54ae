'use strict';
// The command jslit-test262; docs/ENGINES.md describes it.

const { testAndReport } = require('./allowed.js');
const { Failure, grouped, run } = require('./command.js');
const { agentCode, conditionCode, mixesSizes } = require('./code.js');
const { readOptions } = require('./options.js');
const { findProgram } = require('./programs.js');
const { accessesOf } = require('./text/tests.js');

const MOST_OUTCOMES = 300;

// The text as lines of a YAML block in a comment, which it must not end; byte 13 ends a line of YAML, wherever it stands.
function infoLines(text) {
  return text.split('\n').map((line) => line.replace(/[\t\r]/g, ' ').trim().replace(/\*\//g, '* /'))
    .join('\n').trim().split('\n').map((line) => (line === '' ? '' : `  ${line}`));
}

function frontmatter(test, text, whole) {
  const views = test.agents.some(({ statements }) => accessesOf(statements).some(({ view }) => view === 'DV'));
  const what = whole ? 'agents see only outcomes that the memory model allows' : 'no agents see an outcome that meets the condition';
  return ['// Copyright (C) 2026 the jslit authors. All rights reserved.',
    '// This code is governed by the BSD license found in the LICENSE file.', '',
    '/*---', 'esid: sec-memory-model', 'description: >', `  Litmus test ${test.name}: ${what}`, 'info: |',
    '  Memory Model, Valid Executions', '', ...infoLines(text), 'includes: [atomicsHelper.js]',
    `features: [Atomics, ${views ? 'DataView, ' : ''}SharedArrayBuffer, TypedArray]`, '---*/'].join('\n');
}

// What is allowed, as data, or the condition that is not; `isAllowed` says which.
function allowedCode(test, allowed, whole) {
  const registers = `var registers = ${JSON.stringify(allowed.registers)};`;
  if (!whole) {
    return `${registers}\n\n// The condition: it never holds.\nfunction isAllowed(seen) {\n  return !(${conditionCode(test)});\n}`;
  }
  const rows = allowed.outcomes.map((values) => `  [${values.join(', ')}],\n`).join('');
  return `${registers}\n\n// What the memory model allows, by the report of jslit.\nvar allowed = [\n${rows}];\n
function isAllowed(seen) {
  return allowed.some(function(values) {
    return values.every(function(value, place) {
      return value === seen[place];
    });
  });
}`;
}

// What guards a test that accesses a byte in several sizes: what it allows is so where the lowest byte comes first.
const ORDER_CODE = `if (new Uint8Array(new Uint16Array([1]).buffer)[0] !== 1) {
  throw new Test262Error("this test is for machines of little-endian order: it accesses a byte in several sizes");
}`;

// The block has, one after the other, the barriers of the groups, the results and the copies.
function sharedCode(test) {
  return `// Each agent carries out its part of the test on many copies of the block. The agents line up before each group of
// copies, as far as they have the patience.
var COPIES = 4096;
var GROUP = 32;
var STRIDE = 64;
var RESULTS_AT = COPIES / GROUP * 4;
var COPIES_AT = RESULTS_AT + Math.ceil(COPIES * registers.length * 4 / STRIDE) * STRIDE;
var LAYOUT = "var AGENTS = ${test.agents.length}, COPIES = " + COPIES + ", GROUP = " + GROUP + ", STRIDE = " + STRIDE +
  ", REGISTERS = " + registers.length + ", RESULTS_AT = " + RESULTS_AT + ", COPIES_AT = " + COPIES_AT + ";";

var WORK = \`
  $262.agent.receiveBroadcast(function(shared) {
    var report = "done";
    try {
      var barriers = new Int32Array(shared, 0, COPIES / GROUP);
      var out = new Uint32Array(shared, RESULTS_AT, COPIES * REGISTERS);
      var U8 = new Uint8Array(shared, COPIES_AT, COPIES * STRIDE);
      var U16 = new Uint16Array(shared, COPIES_AT, COPIES * STRIDE / 2);
      var U32 = new Uint32Array(shared, COPIES_AT, COPIES * STRIDE / 4);
      var DV = new DataView(shared, COPIES_AT, COPIES * STRIDE);
      for (var number = 0; number < COPIES; number++) {
        if (number % GROUP === 0) {
          var group = number / GROUP;
          Atomics.add(barriers, group, 1);
          for (var tries = 0; tries < 10000 && Atomics.load(barriers, group) < AGENTS; tries++) {}
        }
        copy(U8, U16, U32, DV, number * STRIDE, out, number * REGISTERS);
      }
    } catch (error) {
      report = String(error);
    }
    $262.agent.report(report);
    $262.agent.leaving();
  });
\`;`;
}

function mainCode(test) {
  const agents = test.agents.map((_, agent) => `\`\n${agentCode(test, agent).replace(/^/gm, '  ')}\n\``);
  return `[${agents.join(', ')}].forEach(function(copy) {
  $262.agent.start(LAYOUT + copy + WORK);
});

var shared = new SharedArrayBuffer(COPIES_AT + COPIES * STRIDE);
$262.agent.safeBroadcast(new Int32Array(shared));
for (var agent = 0; agent < ${test.agents.length}; agent++) {
  assert.sameValue($262.agent.getReport(), "done", "each agent carries out its part");
}

var out = new Uint32Array(shared, RESULTS_AT, COPIES * registers.length);
for (var number = 0; number < COPIES; number++) {
  var seen = registers.map(function(register, place) {
    return out[number * registers.length + place];
  });
  var outcome = registers.map(function(register, place) {
    return register + "=" + seen[place];
  });
  assert(isAllowed(seen), "${test.name}: the outcome " + outcome.join(" ") + " is not allowed");
}
`;
}

async function main(given) {
  const words = readOptions(given, { least: 1, most: 1 });
  if (words === null) return 0;
  const { text, test, allowed } = await testAndReport({ ...words, program: await findProgram(words.program), file: words.paths[0] });
  if (allowed.count !== allowed.outcomes.length) {
    throw new Failure(1, `the report says ${allowed.count} outcomes, and has ${allowed.outcomes.length}`);
  }
  const whole = allowed.count <= MOST_OUTCOMES;
  if (!whole && allowed.verdict !== 'never') {
    throw new Failure(1, `the test has ${grouped(allowed.count)} outcomes, and a file has ${MOST_OUTCOMES} at most; `
      + `its condition can't be checked alone, since the verdict is ${allowed.verdict}`);
  }
  const parts = [frontmatter(test, text, whole), ...(mixesSizes(test) ? [ORDER_CODE] : []), allowedCode(test, allowed, whole),
    sharedCode(test), mainCode(test)];
  process.stdout.write(parts.join('\n\n'));
  return 0;
}

run('jslit-test262', main);
