'use strict';
// What an engineer needs of a run that went wrong: why an outcome is not allowed, in the words of jslit-why; and in a folder the program,
// the test, what the engine printed, and the record.

const fs = require('fs');
const path = require('path');
const { Failure, plain } = require('./lines.js');
const { placeOf, runOf } = require('./programs.js');

const SECONDS = 60, LINES = 60, MOST = 4;   // for an answer; lines of one; outcomes that are asked for

// Lines on the first of these outcomes, each with its condition in place of the test's name. The program is not proved and built first, in
// the midst of a campaign.
async function reasonsOf(registers, outside, file) {
  const why = placeOf('jslit-why');
  if (!fs.existsSync(why) || registers.length === 0) return [];
  const lines = [];
  for (const { values } of outside.slice(0, MOST)) {
    const condition = registers.map((register, place) => `${register} == ${values[place]}`).join(' && ');
    const { status, out } = await runOf(why, ['--condition', condition, file], '', { limit: SECONDS * 1000 });
    if (status === 0) lines.push(`${condition}:`, ...out.trimEnd().split('\n').slice(1, LINES));
  }
  return lines;
}

// A new folder in `folder`, by the test's name.
function newFolder(folder, name) {
  fs.mkdirSync(folder, { recursive: true });
  for (let number = 1; ; number += 1) {
    const made = path.join(folder, `${name}-${number}`);
    try {
      fs.mkdirSync(made);
      return made;
    } catch (error) {
      if (error.code !== 'EEXIST') throw error;
    }
  }
}

// Keeps a run, and gives its folder.
function keep(folder, run, { program, file, end }) {
  try {
    const made = newFolder(folder, run.test);
    const write = (name, text, form = 'utf8') => fs.writeFileSync(path.join(made, name), text, form);
    fs.copyFileSync(file, path.join(made, 'test.lit'));
    write('program.js', program);
    write('stdout', end.stdout.kept(), 'latin1');
    write('stderr', end.stderr.kept(), 'latin1');
    write('run.json', `${JSON.stringify(run, null, 1)}\n`);
    write('again.sh', `#!/bin/sh\n${run.again}\n`);
    return made;
  } catch (error) {
    throw error.syscall === undefined ? error : new Failure(4, `what is kept: ${plain(error.message)}`);
  }
}

module.exports = { keep, reasonsOf };
