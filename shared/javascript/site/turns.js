'use strict';
// Stepping through a schedule: a turn for each press of an agent's button.

const { ask, stop } = require('./ask.js');
const { byId, make } = require('./make.js');
const { text } = require('./editor.js');
const { chooseValues } = require('./table.js');

let turns = [];
let names = [];

// The buttons are those of the agents that the text has now.
function newText() {
  stop('turns');
  names = [...new Set(Array.from(text().matchAll(/^[ \t\r]*agent[ \t\r]+(\w+)/gm), ([, name]) => name))].slice(0, 8);
  turns = [];
  byId('agents').replaceChildren(...names.map((name) => make('button', { type: 'button', 'data-agent': name,
    onclick: () => step([...turns, name]) }, `Turn of ${name}`)));
  byId('turns').replaceChildren();
  enable();
}

function enable() {
  byId('undo').disabled = turns.length === 0;
  byId('clear').disabled = turns.length === 0;
}

async function step(next) {
  turns = next;
  enable();
  const told = await ask('turns', 'schedule', { turns: turns.join(',') }, text());
  if (!told) return;
  byId('turns').replaceChildren(...said(told));
  enable();
}

function said(told) {
  const schedule = make('p', {}, turns.length ? `Turns: ${turns.join(',')}, and then the rest` : 'No turns: one agent after the other');
  if (told.kind === 'refusal') return [schedule, make('p', {}, told.refused), ...told.said.map((each) => make('p', {}, each))];
  if (told.kind === 'stopped') return [schedule, make('p', {}, `Stopped at the limit of ${told.limit}.`)];
  if (told.kind !== 'schedule') return [schedule, make('p', {}, told.said)];
  const values = told.interleaving.map(([name, value]) => `${name}=${value}`).join(' ');
  return [schedule, make('p', { id: 'interleaving' }, `interleaving ${values}`), make('p', {}, `meets ${told.meets}`),
    make('button', { type: 'button', onclick: () => find(values) }, 'Find this outcome in the table')];
}

function find(values) {
  const none = 'It isn\u2019t in the table: run the test, or look among its later outcomes.';
  if (!chooseValues(values)) byId('turns').append(make('p', {}, none));
}

function back(next, button) {
  step(next);
  if (button.disabled) byId('agents').querySelector('button')?.focus();
}

byId('undo').addEventListener('click', () => back(turns.slice(0, -1), byId('undo')));
byId('clear').addEventListener('click', () => back([], byId('clear')));

module.exports = { newText };
