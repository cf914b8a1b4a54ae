'use strict';
// The command jslit-compare.

const { Failure, readText, run } = require('./command.js');
const { plain } = require('./lines.js');
const { readOptions } = require('./options.js');
const { Program, byJslitJs, namedProgram } = require('./programs.js');
const { linesOf } = require('./report.js');
const { printedName, write } = require('./runs.js');
const { filesIn, isFolder } = require('./tests_in.js');

const [BEFORE, AFTER] = ['.before.lit', '.after.lit'];

// The registers of a text, by agent, and the lines of its outcomes, each by the values of the sorted registers.
async function outcomesOf(program, limit, name, data) {
  const as = ({ values, ...example }) => [values.map((pair) => pair.join('=')).sort().join(' '), printedOf(values, example)];
  const { registers, outcomes } = await new Program(program, limit).report(name, data, [], { most: Infinity, as });
  return { name, registers, lines: new Map(outcomes) };
}

// The lines of an outcome, as the program prints them.
const printedOf = (values, { from, order }) => linesOf({ outcome: { values: values.map(([, value]) => value),
  from: from.map(([event, sources]) => ({ event, sources })), order } }, values.map(([register]) => register));

const textsIn = (names) => names.map((name) => [name, readText(name)]);

// What two texts are, each beside its file's name: `found`, and the lines that say why.
async function compared(program, limit, texts) {
  const [before, after] = [await outcomesOf(program, limit, ...texts[0]), await outcomesOf(program, limit, ...texts[1])];
  const only = [[before, after], [after, before]].flatMap(([one, other]) => {
    const registers = one.registers.filter((each) => !other.registers.includes(each));
    return registers.length ? [`${plain(one.name)} alone has the register${registers.length > 1 ? 's' : ''} ${registers.join(', ')}`] : [];
  });
  if (only.length) return { found: 'differ', lines: [`the registers differ: ${only.join('; ')}`] };
  const added = [...after.lines].filter(([values]) => !before.lines.has(values)).map(([, lines]) => lines);
  const found = added.length ? 'not allowed' : 'allowed';
  const counts = `outcomes before ${before.lines.size}, after ${after.lines.size}, added ${added.length}`;
  return { found, lines: [`${found}: ${counts}`, ...added.flat()] };
}

// The names of pairs, each with the files that are there of it.
function pairsIn(folder) {
  const pairs = new Map();
  for (const file of filesIn([folder])) {
    const end = [BEFORE, AFTER].find((each) => file.endsWith(each));
    const name = end && file.slice(0, -end.length);
    if (end) pairs.set(name, { ...pairs.get(name), [end]: file });
  }
  if (pairs.size === 0) throw new Failure(1, `${plain(folder)} has no pair NAME${BEFORE}, NAME${AFTER}`);
  return [...pairs].sort(([one], [other]) => (one < other ? -1 : 1));
}

// What a pair of a folder is, the lines that say why, and the status.
async function answer(program, limit, files) {
  try {
    if (Object.keys(files).length < 2) throw new Failure(1, `${plain(Object.values(files)[0])} stands alone`);
    const told = await compared(program, limit, textsIn([files[BEFORE], files[AFTER]]));
    return { ...told, status: told.found === 'allowed' ? 0 : 1 };
  } catch (error) {
    if (error instanceof Failure) return { found: 'rest', lines: [error.message], status: error.status };
    throw error;
  }
}

async function printFolder(program, limit, folder) {
  const counts = { allowed: 0, 'not allowed': 0, differ: 0, rest: 0 };
  let worst = 0;
  for (const [name, files] of pairsIn(folder)) {
    const { found, lines: [first, ...lines], status } = await answer(program, limit, files);
    counts[found] += 1;
    worst = Math.max(worst, status);
    await write(`${[`${printedName(name)}: ${first}`, ...lines.map((line) => `  ${line}`)].join('\n')}\n`);
  }
  const rest = counts.differ + counts.rest;
  await write(`${counts.allowed} allowed, ${counts['not allowed']} not allowed${rest ? `, ${rest} not compared` : ''}\n`);
  return worst;
}

async function main(given) {
  const words = readOptions(given, { least: 1 });
  if (words === null) return 0;
  const { paths, limit } = words;
  if (paths.length > 2 || (paths.length === 1 && !isFolder(paths[0]))) throw new Failure(2, 'give two files, or one folder');
  const isOfJavascript = paths.length === 2 && paths.every((each) => each.endsWith('.js'));
  if (isOfJavascript) return byJslitJs(words.program, ['--limit', String(limit), '--before', ...paths]);
  if (paths.length === 1) return printFolder(await namedProgram(words.program), limit, paths[0]);
  const texts = textsIn(paths);
  const { found, lines } = await compared(await namedProgram(words.program), limit, texts);
  await write(`${lines.join('\n')}\n`);
  return found === 'allowed' ? 0 : 1;
}

run('jslit-compare', main, { isQuiet: true });
