'use strict';
// What the tests share: programs from texts, answers from the program, and interleavings of the code itself.

const fs = require('fs');
const path = require('path');
const { JSLIT, TOP } = require('../../command.js');
const { runOf } = require('../../running.js');
const { answerOf, checkIn } = require('../answer.js');
const { reportOf } = require('../asking.js');
const { Exploring } = require('../explore.js');
const { Limit, Refusal } = require('../refusal.js');
const { Run, isRead } = require('../run.js');
const { Program, plant } = require('../trees.js');
const { writtenBy } = require('./model.js');

const WHY = process.env.JSLIT_WHY || path.join(TOP, 'bin', 'jslit-why');
const PROGRAM = process.env.JSLIT || JSLIT;
const FOLDER = path.join(__dirname, '..', 'samples');
// The values that a read of a small program may have, and what it chooses of.
const domain = ({ op, count }) => (op === 'choice' ? Array.from({ length: count }, (_, place) => place) : [0, 1, 2, 3]);

// The samples, each with its file, what uses it (or null), and the source of both.
const SAMPLES = fs.readdirSync(FOLDER).filter((each) => /^[\w-]+\.js$/.test(each)).map((each) => {
  const [file, use] = [path.join(FOLDER, each), path.join(FOLDER, each.replace('.js', '.use.js'))];
  const isUsed = fs.existsSync(use);
  const source = fs.readFileSync(file, 'utf8') + (isUsed ? fs.readFileSync(use, 'utf8') : '');
  return { name: each.slice(0, -3), file, use: isUsed ? use : null, source };
});

async function ask(text, program = PROGRAM) {
  const told = reportOf((await runOf(program, [], text)).out);
  if (told.refused !== undefined) throw new Error(`refused ${told.refused} of\n${text}`);
  return told;
}

// What jslit-why says of a text.
const askWhy = async (text, words) => ({ why: JSON.parse((await runOf(WHY, ['--json', ...words], text)).out) });

const programOf = (source, main = 'main.js') => new Program(new Map([[main, source]]), main);

// The answer on a source, with the trees that it came from.
async function answered(source, main = 'main.js') {
  const program = programOf(source, main);
  const made = await new Exploring(program, 'it', ask).whole();
  const names = made.trees.list.map(({ name }) => name);
  return { ...answerOf(names, made.ended, checkIn(program.files)), ...made, names, program };
}

// The same, or null where the source is refused.
async function answeredIfTaken(source, main) {
  try {
    return await answered(source, main);
  } catch (error) {
    if (error instanceof Refusal) return null;
    throw error;
  }
}

// The outcomes by the interleavings alone, or null where these don't stand for texts.
function answeredInTurn(source) {
  const program = programOf(source);
  const trees = plant(program);
  try {
    const { ended } = new Exploring(program, 'it', ask).inTurn(trees, new Limit('none'));
    return trees.setting.broken().length ? null : textsOf(answerOf(trees.list.map(({ name }) => name), ended, null));
  } catch (error) {
    if (error instanceof Limit) return null;
    throw error;
  }
}

const textsOf = (answer) => new Set(answer.outcomes.map(({ text }) => text));

// The agents of a source as functions of the values that they read, each turn of their loops with them.
function agentsOf(source, allTurns, main = 'main.js') {
  const program = programOf(source, main);
  const { list, setting } = plant(program);
  const free = { ...setting, allTurns, most: 400 };
  return { names: list.map(({ name }) => name), runs: list.map(({ role }) => kept((values) => new Run(program, role, values, free).go())),
    setting };
}

function kept(run) {
  const known = new Map();
  return (values) => {
    const key = values.join();
    if (!known.has(key)) known.set(key, run(values));
    return known.get(key);
  };
}

// The text of an outcome, by the leaves of all agents.
const tellOf = (names) => (ways) =>
  answerOf(names, [{ leaves: ways.map(({ ended, value, logs, failed }) => ({ end: ended, value, logs, failed })), values: [] }], null)
    .outcomes[0].text;

// Executions of the code in which each access takes effect at once, in an order that `choose` gives. `null` where it came to no end.
function interleaving({ names, runs, setting }, choose, most = 300) {
  const memory = new Map();
  const load = ({ block, first, size }) => {
    let value = 0;
    for (let place = size - 1; place >= 0; place -= 1) value = value * 256 + (memory.get(`${block} ${first + place}`)
      ?? (/^block/.test(block) ? setting.initial(block, first + place) : 0));
    return value;
  };
  const store = ({ block, first, size }, value) => {
    for (let place = 0; place < size; place += 1) memory.set(`${block} ${first + place}`, Math.floor(value / 256 ** place) % 256);
  };
  const agents = runs.map((run) => ({ run, values: [], done: 0, last: run([]) }));
  const isOver = ({ last, done }) => last.ended !== 'pause' && done === last.events.length;
  for (let steps = 0; steps < most; steps += 1) {
    const open = agents.filter((agent) => !isOver(agent));
    if (open.length === 0) return tellOf(names)(agents.map(({ last }) => last));
    const agent = open[choose(open.length)];
    const event = agent.last.events[agent.done];
    agent.done += 1;
    if (!isRead(event.op)) store(event, event.value);
    else {
      const got = event.op === 'choice' ? choose(event.count) : load(event);
      const written = writtenBy({ ...event, got });
      if (written !== null) store(event, written);
      agent.values.push(got);
      agent.last = agent.run(agent.values);
      if (agent.last.ended === 'stutter') return null;
    }
  }
  return null;
}

// All interleavings' outcomes, of agents whose ways come to an end.
function everyInterleaving(agents, most) {
  const found = new Set();
  const waiting = [[]];
  for (let runs = 0; waiting.length; runs += 1) {
    if (runs > most) return null;
    const path = waiting.pop();
    let place = 0;
    const text = interleaving(agents, (count) => {
      if (place === path.length) {
        for (let other = 1; other < count; other += 1) waiting.push([...path, other]);
        path.push(0);
      }
      return path[place++];
    });
    if (text !== null) found.add(text);
  }
  return found;
}

// Numbers that a seed gives.
function randomOf(seed) {
  let state = seed * 2654435761 % 4294967296;
  return (below) => {
    state = (Math.imul(state ^ (state >>> 15), 0x2c1b3c6d) + 0x9e3779b9) >>> 0;
    state = (state ^ (state >>> 13)) >>> 0;
    return state % below;
  };
}

module.exports = {
  SAMPLES, agentsOf, answered, answeredIfTaken, answeredInTurn, ask, askWhy, domain, everyInterleaving, interleaving, programOf,
  randomOf, tellOf, textsOf,
};
