'use strict';
// Notes on the examples of a report in which a read mixes the bytes of several stores though nothing needs it to: another choice, in which
// that read alone takes all its bytes from one store, or from the first zeros, is valid and has the same outcome.

const MILLISECONDS = 2000;  // for the examples of one report
const SHOWN = 6;            // outcomes that are named beside the first

const rangeOf = ({ first, size }) => Array.from({ length: size }, (_, byte) => first + byte);
const isFirst = (source) => source.startsWith('init[');
const FIRST = 'the first zeros';

// The stores that a read takes bytes from; the first zeros count as one.
const writers = (sources) => [...new Set(sources.map((source) => (isFirst(source) ? FIRST : source)))];

// Ways for the read to take all its bytes from one store, or from the first zeros.
function wholeSources(execution, read) {
  const range = rangeOf(read);
  const others = [...execution.events.values()].filter((event) => event.writes !== null && event.name !== read.name && !isFirst(event.name)
    && range.every((byte) => rangeOf(event).includes(byte)));
  return [[FIRST, range.map((byte) => `init[${byte}]`)], ...others.map(({ name }) => [name, range.map(() => name)])];
}

// A read of this example that mixes stores needlessly, the stores, that which it can take all bytes from, and its line; or null. `told`
// gives the execution with these sources and values, or null.
async function needless(told, example) {
  const sources = new Map(example.from);
  const values = new Map(example.values);
  const mixed = [...sources].filter(([, given]) => writers(given).length > 1).map(([name]) => name);
  const execution = mixed.length ? await told(sources, values) : null;
  for (const name of execution ? mixed : []) {
    for (const [one, whole] of wholeSources(execution, execution.events.get(name))) {
      const other = await told(new Map(sources).set(name, whole), values);
      if (other && !other.refusal) return { name, mixed: writers(sources.get(name)), one, line: execution.events.get(name).line };
    }
  }
  return null;
}

const spoken = (words) => [words.slice(0, -1).join(', '), words[words.length - 1]].filter(Boolean).join(' and ');

// The examples of other outcomes, by their numbers.
function those(others) {
  if (others.length === 1) return `that of ${/^[0-9]/.test(others[0]) ? 'outcome ' : ''}${others[0]}`;
  return `those of outcomes ${others.length > SHOWN ? `${others.slice(0, SHOWN).join(', ')} and others` : spoken(others)}`;
}

// The examples with such a read, as many as are named, that are found in time.
async function tornExamples(ask, outcomes) {
  const end = Date.now() + MILLISECONDS;
  const told = (sources, values) => {
    const left = end - Date.now();
    if (left <= 0) throw new Error('the time is up');
    return ask(sources, values, left);
  };
  const found = [];
  for (const each of outcomes) {
    try {
      const torn = await needless(told, each);
      if (torn) found.push({ where: each.group ? `the ${each.group} outcome` : `outcome ${each.number}`, ...torn });
    } catch {
      break;
    }
    if (found.length > SHOWN + 1) break;
  }
  return found;
}

// One note at the most on the outcomes of a report. `ask` gives the execution with these sources and values, within so many milliseconds;
// null where there is none.
async function tornNotes(ask, outcomes) {
  const [first, ...more] = await tornExamples(ask, outcomes);
  if (!first) return [];
  const others = more.map(({ where }) => where.replace(/^outcome /, ''));
  const also = others.length ? `; so it is in ${those(others)}` : '';
  return [{
    line: first.line,
    said: `${first.name} takes its bytes from ${spoken(first.mixed)} in the example of ${first.where}, and needn't: `
      + `with all from ${first.one} the outcome is the same${also}`,
  }];
}

module.exports = { tornNotes };
