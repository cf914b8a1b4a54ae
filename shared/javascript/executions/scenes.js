'use strict';
// The executions of a test that are drawn: of an outcome, a choice by its sources, an attempt at the condition, a data race. `ask`
// gives the JSON that jslit-why answers to some words on the text.

const { Drawing } = require('./drawing.js');
const { Execution, executionIn, fromWords } = require('./execution.js');
const { whyNone } = require('./lacking.js');
const { raceOf } = require('./reasons.js');
const { Fault } = require('../lines.js');

const subjectOf = (text, test) => ({ text, agents: test.agents.map(({ name }) => name) });

// The execution with the values of an outcome that mixes sources least; of a test without registers the one with the sources.
async function showing(ask, sources, values) {
  const condition = [...values].map(([register, value]) => `${register} == ${value}`).join(' && ');
  return executionIn(await ask(values.size ? ['--condition', condition] : ['--from', fromWords(sources, values)]));
}

// An execution with an outcome, by its registers' values and the sources of the report's example. The title says where it is another.
async function example(ask, text, test, sources, values) {
  const execution = await showing(ask, sources, values);
  if (execution === null || execution.refusal) throw new Fault('jslit-why knows no valid execution with these values');
  const isExample = [...sources].every(([read, given]) => String(given) === String(execution.sources.get(read)));
  const outcome = `${test.name}: ${[...values].map(([register, value]) => `${register}=${value}`).join(' ')}`;
  const title = isExample ? outcome : `${outcome}\nnot the report's example, which mixes more sources`;
  return new Drawing(title, subjectOf(text, test), execution);
}

// The least choice that has these sources.
async function chosen(ask, text, test, sources) {
  const execution = executionIn(await ask(['--from', fromWords(sources, new Map())]));
  if (execution === null) throw new Fault(whyNone(test, sources));
  const title = `${test.name}: ${[...sources].map(([read, given]) => `${read} from ${given.join(',')}`).join(', ')}`;
  const valid = execution.refusal ? `refused by ${execution.refusal.clause}` : 'valid';
  return new Drawing(`${title}\n${valid}`, subjectOf(text, test), execution);
}

// What is said of the attempts that a clause refuses.
function refusedBy({ attempts, whole }, { clause, section, attempts: many, cases, whole: isWhole }) {
  const refused = `refused by ${clause} (${section})`;
  const these = attempts === 1 ? refused : `${many} ${refused}, this one first`;
  const shown = cases > 1 || (cases && !isWhole) ? `, the first of ${isWhole ? '' : 'more than '}${cases} cases` : '';
  return `${whole ? '' : 'more than '}${attempts} attempt${attempts === 1 ? '' : 's'}\n${these}${shown}`;
}

// An execution with an outcome in the class, or the first attempt at one.
async function attempt(ask, text, test, unmet) {
  const answer = await ask(unmet ? ['--unmet'] : []);
  const subject = subjectOf(text, test);
  if (answer.execution) {
    const title = `${answer.test}: a valid execution that ${unmet ? 'fails' : 'meets'} the condition`;
    return new Drawing(title, subject, new Execution(answer.execution));
  }
  if (answer.clauses.length === 0) {
    throw new Fault(`${answer.verdict}: there is no attempt, since no path can make ${answer.no_path_can_make} true`);
  }
  const [first] = answer.clauses;
  return new Drawing(`${answer.test}: ${answer.verdict}, ${refusedBy(answer, first)}`, subject, new Execution(first.execution));
}

// The first valid execution with a data race, with its least racing pair.
async function race(ask, text, test) {
  const answer = await ask(['--race']);
  if (!answer.data_race) throw new Fault('no execution has a data race');
  const execution = new Execution(answer.execution);
  const marked = { words: raceOf(execution), least: execution.races[0] };
  return new Drawing(`${answer.test}: the first data race`, subjectOf(text, test), execution, marked);
}

module.exports = { attempt, chosen, example, race };
