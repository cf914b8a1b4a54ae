'use strict';
// The command jslit-diy.

const fs = require('fs');
const path = require('path');
const { Failure, run } = require('./command.js');
const { cycleOf } = require('./cycles/cycle.js');
const { wordOf } = require('./cycles/edges.js');
const { ONE_PLACE, cycleName, family, hasOnePlace, normal } = require('./cycles/families.js');
const { EVERY, cycles, edgesOf, kindsOf } = require('./cycles/vocabulary.js');
const { Writer } = require('./cycles/writing.js');
const { plain } = require('./lines.js');
const { readOptions } = require('./options.js');
const { inOrder } = require('./pool.js');
const { Program, namedProgram } = require('./programs.js');
const { spoken, write } = require('./runs.js');
const { pathOf } = require('./system.js');

const HEADS = ['tests', 'always', 'sometimes', 'never', 'data race'];

// The cycles that are asked for, each in its normal rotation.
function askedFor({ upto, accesses, paths }) {
  if (upto) return cycles(edgesOf(paths.length ? paths : EVERY, kindsOf(accesses || 'P,A')), upto);
  const given = paths.map((word) => word.split(/\s+/).filter(Boolean));
  const lists = given.some(({ length }) => length !== 1) ? given : [paths];
  const found = lists.map((words) => normal(cycleOf(words)));
  return [...new Map(found.map((cycle) => [`${cycle}`, cycle])).values()];
}

// The test of a cycle, with what the program says of it; without that where its time ran out.
async function made(program, limit, cycle) {
  const [writer, name] = [new Writer(cycle), cycleName(cycle)];
  try {
    const { other } = await new Program(program, limit).report(name, writer.text());
    const answer = { verdict: other.verdict, outcomes: other.count, data_race: other.race };
    return { cycle, name, text: `// ${writer.cycle()}\n// expect: ${spoken(answer)}\n${writer.text()}`, answer };
  } catch (error) {
    if (error.status === 5) return { cycle, name, answer: null };
    throw error;
  }
}

// Writes the file of a test. One that is there and has another text is somebody's own.
function writeFile(folder, { name, text: whole }) {
  const file = pathOf(path.join(folder, `${name}.lit`));
  fs.mkdirSync(pathOf(folder), { recursive: true });
  const isThere = fs.lstatSync(file, { throwIfNoEntry: false }) !== undefined;
  const isFile = isThere && fs.statSync(file, { throwIfNoEntry: false })?.isFile();
  const isOwn = isThere && !(isFile && fs.readFileSync(file, 'utf8').replace(/\r\n?/g, '\n') === whole);
  if (isOwn) throw new Failure(1, `${plain(file)} is there, with another text`);
  fs.writeFileSync(file, whole);
}

// How many tests of each family have which answer.
function countLines(tests) {
  const counts = new Map();
  for (const { cycle, answer } of tests) {
    const name = family(cycle);
    const label = hasOnePlace(cycle) && !Object.hasOwn(ONE_PLACE, name) ? `${name}, one place` : name;
    for (const each of [label, 'all']) {
      const count = counts.get(each) ?? Object.fromEntries(HEADS.map((head) => [head, 0]));
      for (const head of ['tests', answer.verdict, ...(answer.data_race === 'yes' ? ['data race'] : [])]) count[head] += 1;
      counts.set(each, count);
    }
  }
  const all = counts.get('all') ?? {};
  counts.delete('all');
  return [['family', ...HEADS], ...[...counts, ['all', all]].map(([label, count]) => [label, ...HEADS.map((head) => count[head] ?? 0)])]
    .map((row) => `${row.join('\t')}\n`);
}

function parsed(given) {
  const words = readOptions(given);
  if (words === null) return null;
  if (!words.upto && words.accesses) throw new Failure(2, '--accesses stands beside --upto');
  if (!words.upto && words.paths.length === 0) throw new Failure(2, 'give a cycle, such as PodWR Fre PodWR Fre, or --upto N');
  return words;
}

async function main(given) {
  const words = parsed(given);
  if (words === null) return 0;
  let wanted;
  try {
    wanted = askedFor(words);
  } catch (error) {
    throw error instanceof Failure ? new Failure(2, plain(error.message)) : error;
  }
  const program = await namedProgram(words.program);
  const { output } = words;
  const isAlone = wanted.length === 1 && output === null;
  const tests = [];
  for await (const told of inOrder(wanted, words.jobs, (cycle) => made(program, words.limit, cycle))) {
    if (told.answer) tests.push(told);
    if (output !== null && told.answer) writeFile(output, told);
    const said = told.answer ? spoken(told.answer) : `no answer within ${words.limit} seconds`;
    await write(isAlone && told.answer ? told.text : `${told.name}: ${told.cycle.map(wordOf).join(' ')}: ${said}\n`);
  }
  if (!isAlone) await write(countLines(tests).join(''));
  return tests.length === wanted.length ? 0 : 5;
}

run('jslit-diy', main, { isQuiet: true });
