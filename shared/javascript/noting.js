'use strict';
// All notes on a text that the program takes: those of its test alone, and those on the examples of its report, where the program has it in
// time.

const fs = require('fs');
const { executionOf, placeOf, reportOf } = require('./programs.js');
const { tornNotes } = require('./executions/torn.js');
const { notesOf } = require('./text/notes.js');

const EXAMPLES = 1000;  // of a report, those that are looked at

// The outcomes of the report that the program prints on a text, with their examples; none where there is none in time.
async function reported(program, words, data, limit) {
  const { run, report } = await reportOf(program, words, data, { most: EXAMPLES, limit });
  return run.status === 0 && report ? report.outcomes : [];
}

// The notes on a text and on the outcomes of its report; on these where jslit-why is there, since a note waits for no build.
async function notesOfReport(data, test, outcomes) {
  const why = placeOf('jslit-why');
  const found = notesOf(data.toString('latin1'), test);
  return [...found, ...(outcomes.length && fs.existsSync(why) ? await tornNotes(executionOf(why, 'the text', data), outcomes) : [])];
}

module.exports = { notesOfReport, reported };
