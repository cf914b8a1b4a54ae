'use strict';
// The command jslit-atomize.

const { Failure, readText, run } = require('./command.js');
const { Accesses, Question, Search, givenUp } = require('./guards.js');
const { readOptions } = require('./options.js');
const { Program, namedProgram } = require('./programs.js');

const spoken = (lines) => (lines.length ? `line${lines.length > 1 ? 's' : ''} ${lines.join(', ')}` : 'none');

// What is said of a line, or null.
function markOf(number, accesses, sets) {
  if (accesses.views.includes(number)) return "a DataView access can't go through Atomics";
  if (!accesses.free.has(number) || sets.length === 0) return null;
  const needing = [...sets.keys()].filter((place) => sets[place].includes(number)).map((place) => place + 1);
  if (needing.length === sets.length) return 'needs Atomics';
  if (needing.length) return `needs Atomics in set${needing.length > 1 ? 's' : ''} ${needing.join(', ')}`;
  return accesses.free.get(number).atomic ? 'needs no Atomics' : null;
}

function markedLines(accesses, sets) {
  const lines = accesses.lines.at(-1) === '' ? accesses.lines.slice(0, -1) : accesses.lines;
  return lines.map((line, place) => {
    const mark = markOf(place + 1, accesses, sets);
    return line.replace(/\r+$/, '') + (mark ? `  // ${mark}` : '');
  });
}

// What is said of all sets, below the text.
function told(question, sets, isWhole) {
  const [count, asked] = [question.whole.length, question.wanted()];
  if (sets.length === 0) {
    return [`With all ${count} loads and stores through Atomics there is a data race`
      + (isWhole ? ', and with any set of them.' : ': from there on none can be given up.')];
  }
  const [first] = sets;
  const left = question.left ? [`A data race is left even with all ${count} of them.`] : [];
  const said = `With ${first.length} of ${count} loads and stores through Atomics ${asked}`;
  if (!isWhole) {
    return [`${said}${question.verdict ? ', as with all of them.' : '.'}`,
      first.length ? `These are ${spoken(first)}; none of them can be given up.` : 'So none of them needs Atomics.', ...left];
  }
  const fewer = question.verdict ? ", as with all of them; with fewer that isn't so." : ', and with fewer there is one.';
  return [said + (first.length ? fewer : '.'), `Sets of this size: ${sets.length}.`,
    ...sets.map((lines, place) => `Set ${place + 1}: ${spoken(lines)}.`), ...left];
}

async function searched(program, data, { file, asked, all, jobs: most }) {
  await program.report(file, data, ['--quick']);   // where the text is refused, this says so
  const accesses = await Accesses.of(file, data);
  const question = await new Question(program, file, accesses).begun(asked);
  if (!all) return { accesses, question, sets: [await givenUp(question)].filter(Boolean) };
  const search = new Search(question, most);
  const sets = await search.least().catch((error) => {
    throw error.status === 5 ? new Failure(5, `${error.message}; no set of fewer than ${search.size} is enough`) : error;
  });
  return { accesses, question, sets };
}

async function main(given) {
  const words = readOptions(given, { apart: [['race', 'verdict']], least: 1, most: 1 });
  if (words === null) return 0;
  const [file] = words.paths;
  const data = readText(file);
  const program = new Program(await namedProgram(words.program), words.time);
  const asked = words.race ? 'race' : words.verdict ? 'verdict' : 'both';
  const { accesses, question, sets } = await searched(program, data, { ...words, file, asked }).catch((error) => {
    throw error.status === 5 ? new Failure(5, `${error.message}; runs: ${program.runs}`) : error;
  });
  const lines = [...told(question, sets, words.all), `Runs: ${program.runs}.`].map((line) => `// ${line}`);
  process.stdout.write(`${[...markedLines(accesses, sets), ...lines].join('\n')}\n`);
  return sets.length ? 0 : 1;
}

run('jslit-atomize', main, { isQuiet: true });
