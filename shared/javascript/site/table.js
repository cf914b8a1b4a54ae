'use strict';
// The table of outcomes: sorted and filtered by register, and walked by the arrow keys.

const { byId, grouped, make } = require('./make.js');

let outcomes = [];
let registers = [];
let order = { column: 0, falls: false };
let wanted = new Map();
let show = () => {};
let current = null;

// Column 0 is the outcome's number, then come the registers; the last one, shown second, says whether the condition is met.
const key = (outcome, column) => {
  if (column === 0) return outcome.number;
  return column > registers.length ? Number(!outcome.meets) : outcome.values[column - 1][1];
};

function setOutcomes(given, act) {
  outcomes = given;
  registers = given.length ? given[0].values.map(([name]) => name) : [];
  order = { column: 0, falls: false };
  wanted = new Map();
  current = null;
  show = act;
  byId('met').checked = false;
  render();
}

function chosen() {
  const kept = outcomes.filter((outcome) => (!byId('met').checked || outcome.meets)
    && [...wanted].every(([column, value]) => String(key(outcome, column)) === value));
  const sign = order.falls ? -1 : 1;
  return kept.sort((a, b) => sign * (key(a, order.column) - key(b, order.column)) || a.number - b.number);
}

function sortBy(column) {
  order = { column, falls: order.column === column && !order.falls };
  render();
  byId(`sort-${column}`).focus();
}

function heading(name, column) {
  const sorted = order.column === column;
  const arrow = sorted ? (order.falls ? ' \u2193' : ' \u2191') : '';
  return make('th', { scope: 'col', 'aria-sort': sorted ? (order.falls ? 'descending' : 'ascending') : 'none' },
    make('button', { type: 'button', id: `sort-${column}`, onclick: () => sortBy(column) }, name + arrow));
}

function filter(name, column) {
  const label = `Show only outcomes with this value of ${name}`;
  const select = make('select', { id: `filter-${column}`, 'aria-label': label }, make('option', { value: '' }, 'any'));
  for (const value of [...new Set(outcomes.map((outcome) => key(outcome, column)))].sort((a, b) => a - b)) {
    select.append(make('option', { value, selected: wanted.get(column) === String(value) }, String(value)));
  }
  select.addEventListener('change', () => {
    if (select.value === '') wanted.delete(column);
    else wanted.set(column, select.value);
    render();
    byId(`filter-${column}`).focus();
  });
  return make('td', {}, select);
}

const spoken = (outcome) => outcome.values.map(([name, value]) => `${name}=${value}`).join(' ');

function row(outcome) {
  const button = make('button', { type: 'button', tabindex: -1, 'aria-label': `Outcome ${outcome.number}: ${spoken(outcome)}, ${
    outcome.meets ? 'meets the condition' : 'does not meet the condition'}. Show its execution` }, grouped(outcome.number));
  const met = make('td', { class: 'met' }, outcome.meets ? '\u2713 meets' : 'doesn\u2019t meet');
  const cells = outcome.values.map(([, value]) => make('td', {}, String(value)));
  const made = make('tr', { class: outcome.meets ? 'meets' : null, 'aria-current': outcome === current ? 'true' : null,
    onclick: () => choose(outcome, made) }, make('td', {}, button), met, ...cells);
  return made;
}

function choose(outcome, made) {
  current = outcome;
  for (const each of made.parentElement.children) each.removeAttribute('aria-current');
  made.setAttribute('aria-current', 'true');
  made.querySelector('button').focus();
  show(outcome);
}

function walk(event) {
  const buttons = [...event.currentTarget.querySelectorAll('button')];
  const at = buttons.indexOf(document.activeElement);
  const to = { ArrowDown: at + 1, ArrowUp: at - 1, Home: 0, End: buttons.length - 1, PageDown: at + 10, PageUp: at - 10 }[event.key];
  if (at < 0 || to === undefined) return;
  event.preventDefault();
  buttons[Math.min(Math.max(to, 0), buttons.length - 1)].focus();
}

// One row alone is reached by Tab: the one that was last there.
function entered(event) {
  for (const button of event.currentTarget.querySelectorAll('button[tabindex="0"]')) button.tabIndex = -1;
  if (event.target.matches('button')) event.target.tabIndex = 0;
}

function render() {
  const shown = chosen();
  const head = make('thead', {},
    make('tr', {}, heading('No.', 0), heading('condition', registers.length + 1),
      ...registers.map((name, place) => heading(name, place + 1))),
    make('tr', {}, make('td', {}, 'only'), make('td'), ...registers.map((name, place) => filter(name, place + 1))));
  const body = make('tbody', { onkeydown: walk, onfocusin: entered }, ...shown.map(row));
  byId('table').replaceChildren(make('table', { 'aria-label': 'Outcomes' }, head, body));
  const first = body.querySelector('tr[aria-current] button') ?? body.querySelector('button');
  if (first) first.tabIndex = 0;
  byId('met').dispatchEvent(new CustomEvent('rendered', { detail: shown.length }));
}

// Chooses the outcome with these values; whether there is one among those that have arrived.
function chooseValues(values) {
  const outcome = outcomes.find((each) => spoken(each) === values);
  if (!outcome) return false;
  if (!chosen().includes(outcome)) {
    wanted.clear();
    byId('met').checked = false;
    render();
  }
  byId('table').querySelectorAll('tbody tr')[chosen().indexOf(outcome)].click();
  return true;
}

byId('met').addEventListener('change', render);

module.exports = { chooseValues, setOutcomes, spoken };
