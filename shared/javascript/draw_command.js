'use strict';
// The command jslit-draw.

const { Failure, readText, run } = require('./command.js');
const { Fault, plain } = require('./lines.js');
const { readOptions } = require('./options.js');
const { builtProgram, byJslitJs, namedProgram, tellWhy, testIn, wholeReport } = require('./programs.js');
const scenes = require('./executions/scenes.js');
const { meetsOf } = require('./text/tests.js');

const ACCESS = '[A-Za-z0-9_]+\\.[0-9]+';
const SOURCE = `(?:init\\[[0-9]+\\]|${ACCESS})`;
const GIVEN = new RegExp(`^${ACCESS}=${SOURCE}(?:,${SOURCE})*$`);

// The sources that the words name, by event.
function sourcesOf(words) {
  const wrong = words.find((word) => !GIVEN.test(word));
  if (wrong !== undefined) throw new Failure(2, `${plain(wrong)} is no EVENT=SOURCE, such as A.1=init[0] or B.0=A.0,A.0`);
  const sources = new Map(words.map((word) => word.split('=')).map(([event, given]) => [event, given.split(',')]));
  if (sources.size < words.length) throw new Failure(2, 'each read is named once');
  return sources;
}

// The outcome that is asked for, by its number, or the first that meets the condition.
async function outcomeOf(program, name, data, test, number) {
  const { outcomes } = await wholeReport(program, [], name, data, { most: Infinity });
  const meets = meetsOf(test);
  const found = number === undefined ? outcomes.find(({ values }) => meets(values.map(([, value]) => value)))
    : outcomes[Number(number) - 1];
  if (found) return found;
  if (number !== undefined) throw new Fault(`the report has the outcomes 1 to ${outcomes.length}`);
  throw new Fault(`no outcome meets the condition; draw one of the outcomes 1 to ${outcomes.length}, or use --why`);
}

function parsed(given) {
  const words = readOptions(given, { apart: [['why', 'race']], least: 1 });
  if (words === null) return null;
  const [file, ...which] = words.paths;
  if (words.unmet && !words.why) throw new Failure(2, '--unmet goes with --why');
  if (which.length && (words.why || words.race)) throw new Failure(2, 'after the file nothing stands with --why and --race');
  const isNumber = which.length === 1 && /^[0-9]{1,15}$/.test(which[0]);
  if (which.length && !isNumber && !which.some((word) => word.includes('='))) {
    throw new Failure(2, 'after the file stands one number of an outcome, or EVENT=SOURCE for each read');
  }
  return { ...words, file, number: isNumber ? which[0] : undefined, sources: isNumber || !which.length ? null : sourcesOf(which) };
}

async function drawingOf({ program, why, race, unmet, file, number, sources }) {
  const data = readText(file);
  const text = data.toString('latin1');
  const jslit = sources || why || race ? null : await namedProgram(program);
  const test = await testIn(file, data);
  const asks = await builtProgram('jslit-why');
  const ask = (words) => tellWhy(asks, words, file, data);
  if (why) return scenes.attempt(ask, text, test, unmet);
  if (race) return scenes.race(ask, text, test);
  if (sources) return scenes.chosen(ask, text, test, sources);
  const { from, values } = await outcomeOf(jslit, file, data, test, number);
  return scenes.example(ask, text, test, new Map(from), new Map(values));
}

async function main(given) {
  const words = parsed(given);
  if (words === null) return 0;
  const isAlone = !(words.sources || words.number || words.why || words.race);
  if (words.file.endsWith('.js') && isAlone) return byJslitJs(words.program, ['--draw', '--', words.file]);
  const drawing = await drawingOf(words);
  process.stdout.write(`${drawing.laidOut().graph()}\n`);
  return 0;
}

run('jslit-draw', main, { isBrief: true });
