'use strict';
// The page: a text, what the program says of it, and the execution of an outcome.

const { ask, stop } = require('./ask.js');
const { addressOf, textOf } = require('./address.js');
const { clearFault, goTo, onChange, setText, showRefusal, text } = require('./editor.js');
const { choose, languageOf, showLanguage } = require('./language.js');
const { byId, grouped, make, sentence } = require('./make.js');
const { showPicture } = require('./picture.js');
const { hideProgram, runProgram, stopProgram } = require('./program.js');
const { savePng, saveSvg, saveText } = require('./save.js');
const { setOutcomes, spoken } = require('./table.js');
const { newText } = require('./turns.js');
const limits = require('../../limits.json');
const { signsOf } = require('../signs.js');
const { linesOf, say, sayRacing, sayStopped, sayVerdict } = require('./verdict.js');

let tests = new Map();   // the library's, by name

// The text that was run, and the report's part that is shown.
let asked = '';
let told = null;

function running(is) {
  byId('stop').disabled = !is;
  byId('verdict').setAttribute('aria-busy', String(is));
}

function hideOutcomes() {
  for (const name of ['picture', 'save', 'racing', 'torn']) stop(name);
  told = null;
  for (const name of ['stale', 'notes', 'outcomes', 'example', 'program-stale']) byId(name).hidden = true;
  byId('saved').textContent = '';
  hideProgram();
}

// Runs JavaScript in this browser.
function runCode() {
  asked = text();
  hideOutcomes();
  if (isTooLong(signsOf(asked).length + signsOf(byId('use').value).length)) return;
  say('running', 'Running it in a frame of its own: two minutes at most.');
  running(true);
  runProgram(asked, byId('use').value, () => running(false));
}

function isTooLong(length) {
  if (length > limits.text) say('failed', `The text has ${grouped(length)} bytes, and ${grouped(limits.text)} at most.`);
  return length > limits.text;
}

async function run(kind, words = {}, of = text()) {
  asked = of;
  clearFault();
  hideOutcomes();
  if (isTooLong(signsOf(asked).length)) return;
  say('running', 'Running: ten seconds at most.');
  running(true);
  const answer = await ask('run', kind, words, asked);
  if (!answer) return;
  running(false);
  show(answer, kind);
  byId(answer.kind === 'refusal' ? 'refusal' : 'verdict').scrollIntoView({ block: 'nearest' });
}

const whole = (skip, of) => run('report', { skip }, of);

function show(answer, kind) {
  if (answer.kind === 'refusal') {
    const isShown = text() === asked;
    if (isShown) showRefusal(answer);
    const where = answer.line ? ` at line ${answer.line}` : '';
    say('failed', make('strong', {}, isShown ? `The text is refused${where}.` : answer.refused));
  } else if (answer.kind === 'stopped') {
    sayStopped(answer, kind, () => run('quick'));
  } else if (answer.kind === 'failed') {
    say('failed', `No answer: ${answer.said}.`);
  } else {
    told = answer;
    sayVerdict(answer, showWhy, showRace);
    sayNotes(answer.notes);
    sayMore(answer);
    byId('save-report').hidden = answer.kind !== 'report';
    byId('outcomes').hidden = answer.outcomes.length === 0;
    setOutcomes(answer.outcomes, showOutcome);
    byId('before').hidden = !(answer.skip > 0);
    byId('after').hidden = !(answer.skip + answer.outcomes.length < answer.count);
  }
}

// How many outcomes are shown, of how many that have arrived, of how many that there are.
function sayShown(shown) {
  if (!told) return;
  const { skip = 0, count = told.outcomes.length, outcomes } = told;
  const last = skip + outcomes.length;
  const part = last - skip === count ? grouped(count) : skip === 0 ? `the first ${grouped(last)} of ${grouped(count)}`
    : `${grouped(skip + 1)} to ${grouped(last)} of ${grouped(count)}`;
  byId('shown').textContent = shown === outcomes.length ? `shown: ${part}` : `shown: ${grouped(shown)}, out of ${part}`;
}

// Notes are the page's own, and no part of the report.
function sayNotes(notes) {
  byId('notes').hidden = notes.length === 0;
  byId('notes').querySelector('ul').replaceChildren(...notes.map(({ line, said }) => make('li', {},
    make('button', { type: 'button', onclick: () => goTo(line, 0) }, `Line ${line}`), ' ', ...sentence(said))));
}

// What is found beside the report: the accesses of a data race, and notes on examples in which a read mixes several stores.
async function sayMore({ race, notes, outcomes }) {
  const isMixed = ({ from }) => from.some(([, sources]) => new Set(sources).size > 1);
  const [racing, torn] = await Promise.all([race === 'yes' ? ask('racing', 'racing', {}, asked) : null,
    outcomes.some(isMixed) ? ask('torn', 'torn', { outcomes }, asked) : null]);
  if (racing?.kind === 'racing') sayRacing(racing.pairs);
  if (torn?.kind === 'torn') sayNotes([...notes, ...torn.notes]);
}

async function saveReport(examples) {
  byId('saved').textContent = 'Asking for it.';
  const answer = await ask('save', 'text', { examples: examples === 'with' }, asked);
  if (!answer) return;
  byId('saved').textContent = answer.kind === 'text' ? '' : `Not saved: ${answer.said ?? `stopped at the limit of ${answer.limit}`}.`;
  if (answer.kind === 'text') saveText(`${told?.test ?? 'report'}${examples === 'with' ? '' : '-outcomes'}.txt`, answer.text);
}

let drawn = '';   // a name for the picture that is shown

// Draws what is answered to a question. Beside it stand its lines in the report, or where it has none what the picture shows.
async function draw(title, name, kind, words, lines = null) {
  byId('example').hidden = false;
  for (const each of ['save-svg', 'save-png']) byId(each).disabled = true;
  drawn = `${told.test}-${name}`;
  byId('example-title').textContent = title;
  byId('lines-title').textContent = lines === null ? 'In words' : 'In the report';
  byId('lines').textContent = lines ?? '';
  byId('picture').setAttribute('aria-busy', 'true');
  byId('picture').textContent = 'Drawing.';
  const picture = await ask('picture', kind, words, asked);
  if (!picture) return;
  byId('picture').setAttribute('aria-busy', 'false');
  for (const each of ['save-svg', 'save-png']) byId(each).disabled = picture.kind !== 'picture';
  if (picture.kind === 'picture') {
    showPicture(picture, title);
    byId('lines').textContent = lines ?? picture.lines.join('\n');
  } else {
    const why = picture.limit ? `stopped at the limit of ${picture.limit}` : picture.said ?? picture.refused;
    byId('picture').textContent = `There is no picture: ${why}.`;
  }
  byId('example').scrollIntoView({ block: 'nearest' });
}

function showOutcome(outcome) {
  return draw(`Outcome ${grouped(outcome.number)}: ${spoken(outcome)}`, outcome.number, 'picture', outcome, linesOf(outcome));
}

// Who asks for these goes to where they are shown.
function showWhy() {
  const unmet = told.verdict !== 'never';
  draw(unmet ? 'Why always: an attempt to fail the condition' : 'Why not: an attempt to meet the condition', 'why', 'why', { unmet });
  byId('example-title').focus();
}

function showRace() {
  draw('The first execution with a data race', 'race', 'race', {});
  byId('example-title').focus();
}

function changed() {
  newText();
  showLanguage(text());
  byId('stale').hidden = !told || text() === asked;
  byId('program-stale').hidden = text() === asked;
}

// Takes a text from the library or the address.
function take(value, language = null, use = '') {
  stop('run');
  running(false);
  setText(value);
  byId('use').value = use;
  byId('harness').open = use !== '';
  choose(language, value);
  hideOutcomes();
  newText();
  say('nothing', 'Nothing has been run yet.');
}

async function takeAddress(otherwise) {
  const { text: given, use, language, broken } = await textOf(location.hash);
  take(given ?? otherwise, language, use);
  if (broken) say('failed', 'The address holds no text that can be read.');
}

function fillLibrary(groups) {
  const found = new Map();
  for (const group of groups) {
    const options = group.tests.map((test) => {
      found.set(test.name, test);
      return make('option', { value: test.name }, `${test.name}: ${test.shows}`);
    });
    byId('library').append(make('optgroup', { label: group.heading }, ...options));
  }
  byId('library').addEventListener('change', () => {
    const test = found.get(byId('library').value);
    byId('shows').textContent = test?.shows ?? '';
    byId('why').hidden = !test;
    byId('comment').textContent = test?.comment ?? '';
    if (!test) return;
    keep();
    write(history.pushState, test.text);
    take(test.text);
  });
  return found;
}

let waiting = 0;
let written = Promise.resolve();   // the address, a text after the other

function write(put, ...given) {
  const address = addressOf(...given);
  written = written.then(async () => put.call(history, null, '', await address));
}

// Keeps the text in the address, so that Back brings it back.
function keep() {
  clearTimeout(waiting);
  write(history.replaceState, text(), languageOf(text()), byId('use').value);
}

const nameIn = (value) => /^[ \t\r]*test[ \t\r]+(\w+)/m.exec(value)?.[1];

// What is said of a test of the library goes where the text is that of another one.
function leaveLibrary() {
  const test = tests.get(byId('library').value);
  if (!test || nameIn(test.text) === nameIn(text())) return;
  byId('library').value = '';
  byId('shows').textContent = '';
  byId('why').hidden = true;
}

function keepSoon() {
  clearTimeout(waiting);
  waiting = setTimeout(keep, 300);
}

const start = () => (languageOf(text()) === 'javascript' ? runCode() : whole(0));

onChange(() => {
  changed();
  leaveLibrary();
  keepSoon();
});
byId('use').addEventListener('input', keepSoon);
byId('language').addEventListener('change', () => {
  showLanguage(text());
  keepSoon();
});
byId('met').addEventListener('rendered', (event) => sayShown(event.detail));
byId('run').addEventListener('click', start);
byId('save-all').addEventListener('click', () => saveReport('with'));
byId('save-outcomes').addEventListener('click', () => saveReport('without'));
byId('save-svg').addEventListener('click', () => saveSvg(`${drawn}.svg`));
byId('save-png').addEventListener('click', () => savePng(`${drawn}.png`));
byId('quick').addEventListener('click', () => run('quick'));
byId('before').addEventListener('click', () => whole(Math.max(told.skip - 1000, 0), asked));
byId('after').addEventListener('click', () => whole(told.skip + told.outcomes.length, asked));
byId('stop').addEventListener('click', () => {
  stop('run');
  stopProgram();
  running(false);
  say('stopped', 'Stopped, as you asked.');
  byId('run').focus();
});
document.addEventListener('keydown', (event) => {
  if (event.key === 'Enter' && (event.ctrlKey || event.metaKey)) {
    event.preventDefault();
    start();
  }
});
window.addEventListener('hashchange', () => takeAddress(text()));
tests = fillLibrary(require('./library.json'));
takeAddress(tests.get('sb')?.text ?? '').then(() => {
  keep();
  return written;
}).then(() => {
  document.documentElement.dataset.ready = 'yes';
});
