'use strict';
// Notes on what a test means, where it may not mean what its writer thinks: decided from the test alone, which the program takes. None
// goes into a report. torn.js has those on a report's examples.

const { paths } = require('./counting.js');
const { codeOf, linesOf } = require('./forms.js');
const { branchesOf, comparisonsOf, eventsOf, storedBy } = require('./tests.js');
const { unread } = require('./unread.js');
const limits = require('../../limits.json');

const MOST = 3;  // pairs of accesses that are told one by one

const meet = (one, other) => one.bytes.some((byte) => other.bytes.includes(byte));
const isSameRange = (one, other) => one.first === other.first && one.size === other.size;

// Atomic accesses of different agents that overlap and have different ranges, and one of which writes at least.
function overlaps(test, codes) {
  const every = test.agents.flatMap(({ name, statements }) => (
    eventsOf(statements).filter(({ atomic }) => atomic).map((event) => ({ name, event }))));
  const found = every.flatMap((one, at) => every.slice(at + 1)
    .filter((other) => one.name !== other.name && (one.event.writes !== null || other.event.writes !== null)
      && meet(one.event, other.event) && !isSameRange(one.event, other.event))
    .map((other) => [one.event, other.event]));
  const notes = found.slice(0, MOST).map(([a, b]) => ({
    line: b.line,
    said: `\`${codes[b.line - 1]}\` and \`${codes[a.line - 1]}\` on line ${a.line} are atomic and overlap, but their bytes differ: `
      + 'they never synchronize with each other',
  }));
  if (found.length > MOST) {
    const more = found.length - MOST;
    notes.push({ line: found[MOST][1].line, said: `${more} more such pair${more > 1 ? 's' : ''} of atomic accesses` });
  }
  return notes;
}

// Whether the read may have this value; where it may not, it never has. Each byte may have 0 at the most, which it has at first, and what
// is stored there by other agents, or by its own agent before.
function canRead(test, agent, event, number) {
  const stored = (byte) => test.agents.flatMap(({ name, statements }) => eventsOf(statements)
    .filter((other) => other.bytes.includes(byte) && (name !== agent || other.line < event.line))
    .flatMap((other) => storedBy(other, byte)));
  return number < 256 ** event.size && event.bytes.every((byte, place) => (
    [0, ...stored(byte)].includes(Math.floor(number / 256 ** place) % 256)));
}

const comparison = (left, equal, number, how = equal ? 'never' : 'always') => `\`${left} ${equal ? '==' : '!='} ${number}\` ${how} holds`;

// Ifs on a register that nothing has read into, and with a number that nobody can have read.
const branches = (test) => test.agents.flatMap(({ name, statements }) => branchesOf(statements).flatMap((branch) => {
  const { line, equal, number } = branch;
  const register = `r${branch.register}`;
  const before = eventsOf(statements).filter((event) => event.register === branch.register && event.line < line);
  if (before.length === 0) {
    const holds = comparison(register, equal, number, (number === 0) === equal ? 'always' : 'never');
    return [{ line, said: `nothing before reads into ${register}, which is 0 here: ${holds}` }];
  }
  if (number === 0 || before.some((event) => canRead(test, name, event, number))) return [];
  return [{ line, said: `nothing before can read ${number} into ${register}: ${comparison(register, equal, number)}` }];
}));

// compareExchanges that expect what nobody can have stored.
const exchanges = (test) => test.agents.flatMap(({ name, statements }) => eventsOf(statements)
  .filter((event) => event.expected && !canRead(test, name, event, event.expected))
  .map(({ line, expected }) => ({ line, said: `${expected} can't be read here: this compareExchange never stores` })));

// Comparisons of the condition with a number that nobody can have read.
const questions = (test, line) => comparisonsOf(test.condition).flatMap(({ agent, register, equal, number }) => {
  const { statements } = test.agents.find(({ name }) => name === agent);
  const reads = eventsOf(statements).filter((event) => event.register === register);
  if (number === 0 || reads.some((event) => canRead(test, agent, event, number))) return [];
  return [{ line, said: `${agent} can't read ${number} into r${register}: ${comparison(`${agent}.r${register}`, equal, number)}` }];
});

// The notes on a text, of which this is the test, in the order of their lines, each once.
function notesOf(text, test) {
  const codes = linesOf(text).map((line) => codeOf(line).split(/\s+/).filter(Boolean).join(' '));
  const line = codes.findIndex((code) => /^check\b/.test(code)) + 1;
  const found = [...overlaps(test, codes), ...branches(test), ...exchanges(test), ...questions(test, line)];
  if (test.agents.every(({ statements }) => paths(statements) <= BigInt(limits.combinations))) found.push(...unread(test, line));
  const once = new Map(found.map((note) => [`${note.line} ${note.said}`, note]));
  return [...once.values()].sort((one, other) => one.line - other.line);
}

module.exports = { notesOf };
