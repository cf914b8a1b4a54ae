'use strict';
// Runs the user's code, in a process of its own with few rights. It is given {files, main, harness, name, wanted} on a line of standard
// input, prints lines of JSON, {ask, text, why}, each of which is answered by a line {ask, ..}, and at last {answer} or {refusal}.

const readline = require('readline');
const { Answering, Asking } = require('./answering.js');
const { Refusal } = require('./refusal.js');

const say = (told) => process.stdout.write(`${JSON.stringify(told)}\n`);

const answered = async (told, asking) => new Answering(told, asking).whole(told.wanted);

const asking = new Asking(say);
const lines = readline.createInterface({ input: process.stdin });
lines.once('line', (line) => {
  lines.on('line', (more) => asking.answered(JSON.parse(more)));
  answered(JSON.parse(line), asking).then((answer) => say({ answer }), (error) => {
    if (!(error instanceof Refusal)) throw error;
    say({ refusal: { text: error.message, at: error.at, status: error.status } });
  }).finally(() => lines.close());
});
