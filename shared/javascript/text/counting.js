'use strict';
// What makes a test too large: its accesses, its paths and its choices, counted from the test as the program tells it.

const limits = require('../../limits.json');
const { decides, inits, isIf, walks } = require('./tests.js');

const product = (numbers) => numbers.reduce((all, each) => all * each, 1n);

// How many accesses the longest way through the statements has.
const accesses = (statements) => statements.reduce((sum, each) => (
  sum + (isIf(each) ? Math.max(accesses(each.body), accesses(each.other)) : 1)), 0);

const paths = (statements) => product(statements.map((each) => {
  if (isIf(each)) return paths(each.body) + paths(each.other);
  return decides(each) ? 2n : 1n;
}));

// The lines with a decision.
const decisions = (statements) => statements.flatMap((each) => {
  if (isIf(each)) return [each.line, ...decisions(each.body), ...decisions(each.other)];
  return decides(each) ? [each.line] : [];
});

function tooManyEvents(test) {
  const counts = test.agents.map(({ name, statements }) => ({ name, count: accesses(statements) }));
  const total = counts.reduce((sum, { count }) => sum + count, 0);
  return [`on their longest ways the agents make ${counts.map(({ name, count }) => `${name} ${count}`).join(', ')} accesses: `
    + `${total} together, and ${limits.accesses} at most`,
  `leave out ${total - limits.accesses}, or make two tests; an \`if\` counts the longer of its parts`];
}

function tooManyPaths(test) {
  const told = test.agents.map(({ name, statements }) => {
    const lines = decisions(statements);
    return `${name} has ${paths(statements)} paths${lines.length ? ` (line${lines.length > 1 ? 's' : ''} ${lines.join(', ')})` : ''}`;
  });
  const total = product(test.agents.map(({ statements }) => paths(statements)));
  return [`${told.join(', ')}: ${total} combinations, and ${limits.combinations} at most`,
    'each compareExchange and each `if` doubles what comes after it: put later ones into an `if` or an else part, or leave one out'];
}

// The walks of an agent, each only by what its accesses read and write.
function narrow(statements) {
  const found = new Map();
  for (const walk of walks(statements)) {
    const events = walk.flatMap(({ event }) => (event ? [event] : []));
    found.set(events.map(({ line, writes }) => `${line}:${writes}`).join(' '), events);
  }
  return [...found.values()];
}

// Of the combination of paths with the most choices: for each read its ways, agent, event, and the numbers of candidates of its bytes.
function mostChoices(test) {
  const made = inits(test.bytes);
  const kept = test.agents.map(({ name, statements }) => ({ name, walks: narrow(statements) }));
  const readsOf = (combination) => {
    const writes = Array.from({ length: test.bytes }, (_, byte) => [...made, ...combination.flat()]
      .filter((event) => event.writes !== null && event.bytes.includes(byte)).length);
    return combination.flatMap((events, at) => events.filter(({ register }) => register !== null).map((event) => {
      const candidates = event.bytes.map((byte) => writes[byte] - (event.writes !== null ? 1 : 0));
      return { ways: product(candidates.map(BigInt)), name: kept[at].name, event, candidates };
    }));
  };
  const every = kept.reduce((lists, each) => lists.flatMap((list) => each.walks.map((walk) => [...list, walk])), [[]]);
  const size = (reads) => product(reads.map(({ ways }) => ways));
  return every.map(readsOf).reduce((most, reads) => (size(reads) > size(most) ? reads : most));
}

function tooManyChoices(test, codes) {
  const reads = mostChoices(test);
  const total = product(reads.map(({ ways }) => ways));
  const many = [...reads].sort((one, other) => Number(other.ways - one.ways > 0n) - Number(other.ways - one.ways < 0n));
  const told = many.slice(0, 6).filter(({ ways }) => ways > 1n).map(({ ways, name, event: { line }, candidates }) => (
    `  ${name}: line ${line}, \`${codes[line - 1]}\`, ${candidates.join(' * ')}${candidates.length > 1 ? ` = ${ways}` : ''} ways`));
  const said = [`the reads of one combination of paths can take their bytes in ${total} ways; ${limits.choices} is the most over all `
    + 'combinations', ...told, ...(many.length > 6 ? [`  and ${many.length - 6} more reads`] : [])];
  const wide = reads.find(({ event }) => event.size > 1);
  if (!wide) return [...said, 'each load and each store of the byte multiplies: leave some out, or give some a byte of their own'];
  const events = test.agents.flatMap(({ statements }) => narrow(statements).flat());
  const isOfOneSize = new Set(events.map(({ size }) => size)).size === 1;
  const reason = events.every(({ atomic }) => atomic) ? 'all accesses are atomic and' : 'all accesses are';
  return [...said, `${isOfOneSize ? `${reason} of one size: ` : ''}a test of words whose accesses are all atomic or of one size often fits `
    + `with \`U8\`: a read of ${wide.event.size} bytes takes each byte from a store of its own`];
}

// What is said of a fault of a whole test, by its number, of the test and the lines of its text without comments.
const COUNTS = { 13: tooManyPaths, 14: tooManyEvents, 15: tooManyChoices };

module.exports = { COUNTS, paths };
