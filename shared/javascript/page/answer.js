'use strict';
// What the page is answered: the proved programs' answers, with what the commands say of them. `answer` takes a question, which has a kind
// of the table ANSWERS, what that is given, and a text, each sign of which stands for a byte.

const { executionOf, reportOf, runOf, silent, tellText, tellWhy } = require('../answers.js');
const { Execution } = require('../executions/execution.js');
const scenes = require('../executions/scenes.js');
const { tornNotes } = require('../executions/torn.js');
const { Failure, Fault } = require('../lines.js');
const { VALUES, valuesIn } = require('../report.js');
const { more, printedOf } = require('../text/faults.js');
const { codeOf } = require('../text/forms.js');
const { notesOf } = require('../text/notes.js');
const { advice } = require('../text/refusals.js');
const { meetsOf } = require('../text/tests.js');

const MEBIBYTES = 512;   // how much memory the programs may have
const PART = 1000;       // how many outcomes of a report an answer has
const REPORT = 8 << 20;  // how many bytes of a report it gives as a text
const NAME = 'the text';
const OUT_OF_MEMORY = { kind: 'stopped', by: 'memory', limit: `${MEBIBYTES} MB of memory` };

// What is asked of a text.
class Question {
  constructor(text) {
    this.text = text;
  }

  // What the program prints on the text, as a report.
  async report(words, range = {}) {
    const { run, report } = await reportOf('jslit', words, this.text, range);
    if (run.status === 3) throw new Failure(3, NAME);
    if (report === null || run.status !== (report.other.refused ? 1 : 0)) throw new Failure(70, `the program: ${silent(run)}`);
    return report;
  }

  tell(text = this.text) {
    return tellText('jslit-text', NAME, text);
  }

  ask(words) {
    return tellWhy('jslit-why', words, NAME, this.text);
  }
}

// The program's refusal, what there is to say of it, and the same of the text's other faults.
async function refused(question, printed, schedule = null) {
  const told = await question.tell();
  const faultOf = (said, { line, lines, from, column, said: sentences, write }) => {
    const [, kind, name] = said.split(' ');
    return { refused: said, number: Number(kind), name, line, lines, from, column, said: sentences, write };
  };
  const others = [];
  const all = more(printed, question.text, told, (text) => question.tell(text));
  for await (const other of all) others.push(faultOf(other.printed, other.advice));
  return { kind: 'refusal', ...faultOf(printed, advice(printed, question.text, told, { schedule })), more: others };
}

// The pairs of accesses in a data race of the first execution with one: of each its name, the number of its line and its line.
async function answerRacing(question) {
  const answer = await question.ask(['--race']);
  if (!answer.data_race) throw new Fault('no execution has a data race');
  const execution = new Execution(answer.execution);
  const lines = question.text.split('\n');
  const pairs = execution.races.map((pair) => pair.map((name) => {
    const { line } = execution.events.get(name);
    return { name, line, code: codeOf(lines[line - 1]).split(/\s+/).filter(Boolean).join(' ') };
  }));
  return { kind: 'racing', pairs };
}

async function told(kind, question, report) {
  if (report.other.refused) return refused(question, report.other.refused);
  const { test } = await question.tell();
  const meets = meetsOf(test);
  const outcomes = report.outcomes.map((outcome) => ({ ...outcome, meets: meets(outcome.values.map(([, value]) => value)) }));
  const asks = codeOf(question.text.split('\n').find((line) => /^\s*check\b/.test(line)));
  return { kind, condition: asks.trim().slice('check'.length).trim(), ...report.other, notes: notesOf(question.text, test), outcomes };
}

// The report as the program prints it, with its examples or without.
async function answerText(question, { examples }) {
  let [kept, rest, isShort] = ['', '', true];
  const take = (piece) => {
    const lines = (rest + piece).split('\n');
    rest = lines.pop();
    kept += lines.filter((line) => examples || !line.startsWith('  ')).map((line) => `${line}\n`).join('');
    isShort = kept.length <= REPORT;
    return isShort;
  };
  const run = await runOf('jslit', [], question.text, { take });
  if (!isShort) throw new Fault(`it is longer than ${REPORT >> 20} MB: the program itself has no such limit`);
  if (run.status === 3) throw new Failure(3, NAME);
  if (run.status !== 0 && run.status !== 1) throw new Failure(70, `the program: ${silent(run)}`);
  return { kind: 'text', text: kept };
}

// The picture of an execution of a text that the program takes, with what it shows in words.
async function pictured(question, drawingOf) {
  const { test, fault } = await question.tell();
  if (fault) return refused(question, printedOf(fault));
  const drawing = await drawingOf((words) => question.ask(words), question.text, test);
  return { kind: 'picture', lines: drawing.lines(), ...drawing.laidOut().shapes() };
}

// What the exploring of JavaScript asks of an execution, with these sources or any: what jslit-why says.
async function answerExecution(question, { sources }) {
  try {
    return { kind: 'execution', why: await question.ask(sources === '' ? [] : ['--from', sources]) };
  } catch (error) {
    if (error.status !== 1) throw error;
    return { kind: 'execution', why: { refused: error.message } };
  }
}

// Each kind with what answers it: `picture` draws an outcome's example, as the report has it, `why` an attempt at an outcome that meets the
// condition, or that doesn't. `values` are those of all outcomes, or the number of a refusal, for the exploring of JavaScript.
const ANSWERS = {
  report: async (question, { skip: first }) => (
    { ...await told('report', question, await question.report([], { first, most: PART })), skip: first }),
  quick: async (question) => told('quick', question, await question.report(['--quick'], { most: 2 })),
  schedule: async (question, { turns }) => {
    const { other } = await question.report(['--schedule', turns]);
    return other.refused ? refused(question, other.refused, turns) : { kind: 'schedule', turns, ...other };
  },
  text: answerText,
  racing: answerRacing,
  torn: async ({ text }, { outcomes }) => ({ kind: 'torn', notes: await tornNotes(executionOf('jslit-why', NAME, text), outcomes) }),
  picture: (question, { from, values }) => (
    pictured(question, (ask, text, test) => scenes.example(ask, text, test, new Map(from), new Map(values)))),
  why: (question, { unmet }) => pictured(question, (ask, text, test) => scenes.attempt(ask, text, test, unmet)),
  race: (question) => pictured(question, scenes.race),
  values: async (question) => ({ kind: 'values', ...valuesIn(await question.report([], VALUES)) }),
  execution: answerExecution,
};

async function answer({ kind, given, text }) {
  try {
    return await ANSWERS[kind](new Question(text), given);
  } catch (error) {
    if (error.status === 3) return OUT_OF_MEMORY;
    if (error instanceof Failure || error instanceof Fault) return { kind: 'failed', said: error.message };
    throw error;
  }
}

module.exports = { MEBIBYTES, answer };
