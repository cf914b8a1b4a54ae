'use strict';
// What the page shows of JavaScript: outcomes as a table, data races and what nothing ends, each with an execution, and what jslit-js
// prints.

const { clearFault, showRefusal } = require('./editor.js');
const { Session } = require('./javascript.js');
const { byId, grouped, make } = require('./make.js');
const { say } = require('./verdict.js');

const MAIN = 'program.js';
const USE = 'harness.js';
let session = null;
let title = '';    // of the lines that are asked for

// Ends what runs, and what was told of it can't be asked about any more.
function stopProgram() {
  session?.end();
  session = null;
}

function hideProgram() {
  stopProgram();
  byId('program').hidden = true;
}

const button = (said, act, id = null) => make('button', { type: 'button', id, onclick: act }, said);

// Lines below the table, under a heading.
function showSteps(heading, lines) {
  byId('steps-title').textContent = heading;
  byId('steps').textContent = lines.join('\n');
  byId('steps-part').hidden = false;
}

function askMore(heading, asked) {
  title = heading;
  showSteps(heading, ['Asking for it.']);
  byId('steps-title').scrollIntoView({ block: 'nearest' });
  if (!session || session.isOver) showSteps(heading, ['The code is no longer there: run it again.']);
  else session.more(asked);
}

function row({ text, holds, isPerhaps }, place, isAsked) {
  const shown = text || '(nothing is returned or printed)';
  const act = () => askMore(`Outcome ${grouped(place + 1)}: ${shown}`, { example: place });
  const word = `${isAsked ? (holds ? 'holds' : 'FAILS') : ''}${isPerhaps ? ' (perhaps)' : ''}`;
  const label = `Outcome ${place + 1}: ${shown} ${word}. Show its execution`;
  const number = make('button', { type: 'button', 'aria-label': label, onclick: act }, grouped(place + 1));
  return make('tr', { class: holds ? null : 'fails' }, make('td', {}, number), make('td', {}, shown), make('td', {}, word));
}

// A line with what shows the others.
const shownBy = ([head, ...lines], kind, place) => make('p', { class: kind }, make('strong', {}, head), ' ',
  ...(lines.length ? [button('Show it', () => showSteps(head, lines), `show-${kind}-${place}`)] : []));

function sayAnswer({ outcomes, verdict, race, races, hangs }) {
  const failing = outcomes.filter(({ holds }) => !holds).length;
  const often = verdict === 'always' ? '' : `, fails in ${failing} of ${outcomes.length}`;
  const check = verdict === null ? 'no check is asked' : `check ${verdict}${often}`;
  say('told', make('p', {}, make('strong', {}, check)),
    ...(verdict === 'always' ? [make('p', {}, button('Why always?', () => askMore('Why always', { why: true }), 'show-why'))] : []),
    make('p', { id: 'count' }, `${grouped(outcomes.length)} outcome${outcomes.length === 1 ? '' : 's'}`),
    ...(race === 'yes' ? races.map((lines, place) => shownBy(lines, 'race-yes', place))
      : [make('p', { class: `race-${race === 'no' ? 'no' : 'perhaps'}` }, make('strong', {}, `data race ${race}`))]),
    ...hangs.map((lines, place) => shownBy(lines, 'hang', place)));
}

function show(told) {
  sayAnswer(told);
  const isAsked = told.verdict !== null;
  byId('program-table').replaceChildren(make('table', { 'aria-label': 'Outcomes' },
    make('thead', {}, make('tr', {}, ...['No.', 'outcome', isAsked ? 'check' : ''].map((name) => make('th', { scope: 'col' }, name)))),
    make('tbody', {}, ...told.outcomes.map((outcome, place) => row(outcome, place, isAsked)))));
  byId('printed').textContent = told.lines.join('\n');
  byId('steps-part').hidden = true;
  byId('program').hidden = false;
}

// A refusal stands at its line, where that is one of the editor.
function refused({ text, file, line }) {
  const place = file === MAIN ? line : null;
  say('failed', make('strong', {}, place === null ? 'The code is refused.' : `The code is refused at line ${place}.`));
  const refusal = place === null ? text : text.replace(/^[^ ]+: /, '');
  showRefusal({ refused: refusal, line: place, column: null, said: [], write: null, more: [] });
  byId('refusal').scrollIntoView({ block: 'nearest' });
}

// Runs the text with its harness; `done` is called once there is an answer or none is to come.
function runProgram(text, use, done) {
  hideProgram();
  clearFault();
  const mine = new Session({ files: [[MAIN, text]], use: use.trim() === '' ? null : { name: USE, text: use } }, (message) => {
    if (mine !== session) return;
    done();
    const { kind } = message;
    if (kind === 'told') show(message.told);
    else if (kind === 'lines') showSteps(title, message.lines.length ? message.lines : ['No execution is shown of it.']);
    else if (!byId('program').hidden) showSteps(title, [message.refusal?.text ?? message.stopped ?? message.failed]);
    else if (kind === 'refusal') refused(message.refusal);
    else if (kind === 'stopped') say('stopped', make('p', {}, make('strong', {}, `Stopped: ${message.stopped}.`)));
    else say('failed', `No answer: ${message.failed}.`);
  });
  session = mine;
}

byId('ask-outcome').addEventListener('submit', (event) => {
  event.preventDefault();
  askMore(`Outcome ${byId('words').value}`, { outcome: byId('words').value });
});

module.exports = { hideProgram, runProgram, stopProgram };
