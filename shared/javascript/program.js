'use strict';
// A test as a program for an engine: one worker for each agent, by whatever the engine has for workers. How it is run is what agent.js has
// as SETTINGS. The lists there are gone through step after step; their lengths have no common factor but that of strides and skews, which
// shift against one another. The seed says where they begin.

const fs = require('fs');
const path = require('path');
const { agentCode, alignmentOf, mixesSizes } = require('./code.js');
const { registersOf } = require('./text/tests.js');

const part = (name) => fs.readFileSync(path.join(__dirname, name), 'utf8');

// On a machine of so many processors; more agents than these never run at a time, and don't wait for it.
function settingsOf(test, { tried, in_step: inStep, seed }, processors) {
  const alignment = alignmentOf(test);
  return {
    tried,                                   // seconds at most
    in_step: inStep,                         // copies after which it is enough
    seed,
    copies: 2048,                            // in a step
    groups: [16, 64, 32, 256, 128],          // how many copies have one barrier
    strides: [64, Math.ceil(test.bytes / alignment) * alignment, 64 + alignment, 192],
    skews: [0, 8, 0, 40],
    patiences: [2000, 20000, 100000],        // looks at a group's barrier before an agent sleeps,
    waking: test.agents.length > processors ? 100 : 1000000,   // where it waits for others that are being woken,
    answer: 1000,                            // and before one that came counts as taken away
  };
}

// The script of an agent; its last line is left to the host, which has the block and calls `work`.
function agentScript(test, agent, settings) {
  return ["'use strict';",
    `const AGENT = ${agent}, AGENTS = ${test.agents.length}, REGISTERS = ${registersOf(test).length};`,
    `const SETTINGS = ${JSON.stringify(settings)};`,
    agentCode(test, agent), part('agent.js')].join('\n');
}

// The program: the scripts as data, and the hosts, of which it takes the one that is there.
function programOf(test, settings) {
  const scripts = test.agents.map((_, agent) => agentScript(test, agent, settings));
  return `const SCRIPTS = ${JSON.stringify(scripts, null, 1)};\nconst MIXES = ${mixesSizes(test)};\n${part('hosts.js')}`;
}

module.exports = { programOf, settingsOf };
