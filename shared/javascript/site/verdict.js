'use strict';
// What is said of an answer, in the words of the program.

const { byId, grouped, make } = require('./make.js');

const MEANS = { always: 'every outcome meets', sometimes: 'some outcome meets, and some doesn\u2019t meet,', never: 'no outcome meets' };

function say(kind, ...inside) {
  const place = byId('verdict');
  place.className = `is-${kind}`;
  place.replaceChildren(...inside);
  // On a narrow page the answer stands below all that one writes.
  if (kind === 'told' || kind === 'stopped') place.scrollIntoView({ block: 'nearest' });
}

const access = ({ name, line, code }) => [make('code', {}, code), ` (${name}, line ${line})`];

const asking = (id, said, act) => make('p', {}, make('button', { type: 'button', id, onclick: act }, said));

// What the report says of data races.
function race(told, show) {
  if (told.kind === 'quick') return [make('p', { class: 'note' }, 'A quick report doesn\u2019t say whether there is a data race.')];
  if (!told.race) return [];
  const said = [make('p', { id: 'race', class: `race-${told.race}` }, make('strong', {}, `data race ${told.race}`)),
    make('p', { id: 'racing' }, told.race === 'yes' ? 'some execution has one' : 'no execution has one')];
  return told.race === 'yes' ? [...said, asking('show-race', 'Show the race', show)] : said;
}

// Which accesses are in one.
function sayRacing([[one, other], ...more]) {
  const also = more.length ? `, and ${more.length} more pair${more.length === 1 ? '' : 's'}` : '';
  byId('racing').replaceChildren('as in the first execution with one: ', ...access(one), ' and ', ...access(other), also);
}

// What there is to ask where all outcomes are alike.
const WHY = { always: 'Why always?', never: 'Why not?' };

function sayVerdict(told, showWhy, showRace) {
  const count = told.kind === 'quick' ? 'quick report: an example of each kind that there is'
    : `${grouped(told.count)} outcome${told.count === 1 ? '' : 's'}`;
  say('told', make('p', {}, make('strong', {}, `${told.test}: verdict ${told.verdict}`)),
    make('p', {}, `${MEANS[told.verdict]} the condition `, make('code', {}, told.condition)),
    ...(WHY[told.verdict] ? [asking('show-why', WHY[told.verdict], showWhy)] : []),
    make('p', { id: 'count' }, count), ...race(told, showRace));
}

function sayStopped(told, kind, quick) {
  const said = [make('p', {}, make('strong', {}, `Stopped at the limit of ${told.limit}.`), ' Nothing is known of the outcomes.')];
  if (kind === 'report') {
    said.push(make('p', {}, 'Quick asks for the verdict and two examples alone, and may end sooner. ',
      make('button', { type: 'button', id: 'offered', onclick: quick }, 'Quick')));
  }
  said.push(make('p', { class: 'note' }, 'The program itself, without this page, has no such limit.'));
  say('stopped', ...said);
}

// An order in which first zeros that stand in a row are one word.
function folded(order) {
  const words = [];
  for (const name of order) {
    const byte = Number(/^init\[(\d+)\]$/.exec(name)?.[1]);
    if (byte === words.at(-1)?.last + 1) words.at(-1).last = byte;
    else words.push({ name, first: byte, last: byte });
  }
  return words.map(({ name, first, last }) => (last > first ? `init[${first}..${last}]` : name));
}

// The lines of an outcome as the report has them, with the order folded.
function linesOf(outcome) {
  const values = outcome.values.map(([name, value]) => ` ${name}=${value}`).join('');
  return [`${outcome.group ? `${outcome.group} ` : ''}outcome${values}`,
    ...outcome.from.map(([event, sources]) => `  from ${event} ${sources.join(' ')}`),
    `  order ${folded(outcome.order).join(' ')}`].join('\n');
}

module.exports = { linesOf, say, sayRacing, sayStopped, sayVerdict };
