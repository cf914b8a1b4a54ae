'use strict';
// The answer: outcomes by what the agents return and print, and whether the check holds.

const { vm } = require('./host.js');
const { Refusal } = require('./refusal.js');
const { shown, valueOf } = require('./values.js');

const PATIENCE = 1000;   // milliseconds for a check of an outcome

// `// check: A !== B` on a line of its own, the last one of all files: {text, file, line}, or null.
function checkIn(files) {
  let found = null;
  for (const [file, source] of files) {
    source.split('\n').forEach((line, place) => {
      const text = /^\s*\/\/\s*check:\s*(.*?);?\s*$/.exec(line)?.[1];
      if (text) found = { text, file, line: place + 1 };
    });
  }
  return found;
}

// What an agent gives: what it printed, and what it returned, threw, or which assertion failed.
function told(leaf) {
  const words = [...leaf.logs];
  if (leaf.end === 'threw') words.push(`throws ${leaf.value}`);
  else if (leaf.value !== undefined && leaf.value.type !== 'undefined') words.push(shown(leaf.value));
  for (const { at, text } of leaf.failed) words.push(`fails the assertion of line ${at?.line}${text ? `, ${text}` : ''}`);
  return words.join(' | ');
}

// An outcome, of what each agent gave in words.
const textOf = (names, words) => names.map((name, place) => [name, words[place]]).filter(([, said]) => said !== '')
  .map(([name, said]) => `${name}: ${said}`).join('   ');

// An agent's value in a check: what it returned, or else the list of what it printed.
const dataIn = (leaf) => (leaf.end === 'threw' ? { type: 'error', name: 'Error', message: leaf.value }
  : leaf.value === undefined && leaf.logs.length ? { type: 'array', items: leaf.logs.map((value) => ({ type: 'string', value })) }
    : leaf.value ?? { type: 'undefined' });

class Check {
  constructor({ text, file, line }) {
    Object.assign(this, { text, at: { file, line } });
    try {
      this.script = new vm.Script(`(${text})`, { filename: 'check' });
    } catch (error) {
      throw this.refusal(error);
    }
  }

  refusal(error) {
    return new Refusal(`this check can't be worked out: ${error.message}`, this.at);
  }

  holds(names, leaves) {
    const context = vm.createContext();
    const global = vm.runInContext('globalThis', context);
    names.forEach((name, place) => { global[name] = valueOf(dataIn(leaves[place]), global); });
    try {
      return Boolean(this.script.runInContext(context, { timeout: PATIENCE }));
    } catch (error) {
      throw this.refusal(error);
    }
  }
}

// Of ways with one outcome those are shown that are certain, and then those with the fewest reads.
function isBetter(made, known) {
  const count = ({ values }) => values.reduce((sum, each) => sum + each.length, 0);
  return made.isPerhaps === known.isPerhaps ? count(made) < count(known) : known.isPerhaps;
}

// Of executions that ended, {leaves, values, isPerhaps}: {outcomes: [{text, isPerhaps, holds, leaves, values}], verdict (null where
// nothing is asked)}.
function answerOf(names, ended, asked) {
  const check = asked && new Check(asked);
  const outcomes = new Map();
  for (const { leaves, values, isPerhaps } of ended) {
    const text = textOf(names, leaves.map(told));
    const holds = leaves.every(({ failed, end }) => failed.length === 0 && end !== 'assert')
      && (check === null || check.holds(names, leaves));
    const made = { text, isPerhaps, holds, leaves, values };
    const known = outcomes.get(text);
    if (!known) outcomes.set(text, made);
    else if (isBetter(made, known)) outcomes.set(text, { ...made, holds: known.holds && holds });
    else known.holds &&= holds;
  }
  const list = [...outcomes.values()].sort((a, b) => (a.text < b.text ? -1 : 1));
  const good = list.filter(({ holds }) => holds).length;
  const isAsked = check !== null || ended.some(({ leaves }) => leaves.some(({ failed }) => failed.length));
  return { outcomes: list, verdict: !isAsked ? null : good === 0 ? 'never' : good === list.length ? 'always' : 'sometimes' };
}

module.exports = { Check, answerOf, checkIn, dataIn, textOf, told };
