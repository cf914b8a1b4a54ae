'use strict';
// The command jslit-json; docs/ENGINES.md describes it.

const fs = require('fs');
const { Failure, run } = require('./command.js');
const { Fault, Writer, plain } = require('./lines.js');
const { ReportReader, jsonWriter, linesOf, readReports } = require('./report.js');
const { readJson } = require('./json.js');
const { readOptions } = require('./options.js');
const { pathOf } = require('./system.js');

// Takes the parts of a report to its JSON, which names the file where it is one of several.
function forwardWriter(writer, several, file) {
  const text = several ? jsonWriter(true, file) : jsonWriter();
  return (part) => writer.add(text(part));
}

// Takes the parts of a report to its lines. Each goes through the reader of reports too, so that nothing but a report is written.
function backWriter(writer) {
  const reader = new ReportReader(() => {});
  let registers = [];
  return (part) => {
    if (part.begins) registers = part.begins.registers;
    const lines = linesOf(part, registers);
    for (const line of lines) reader.line(line);
    writer.add(lines.map((line) => `${line}\n`).join(''));
    if (part.all || part.ends) reader.line(null);
  };
}

// What is told of an input that fails.
function failureOf(error, file, isOne) {
  if (error.code !== undefined) return new Failure(4, plain(error.message));
  if (!(error instanceof Fault)) return new Failure(1, plain(`the JSON isn't that of a report: ${error.message}`));
  const hint = file && /^line [12] of the report/.test(error.message) ? `; of a text jslit makes one: jslit ${file} | jslit-json` : '';
  return new Failure(1, plain(`${isOne ? '' : `${file}: `}${error.message}${hint}`));
}

async function main(given) {
  const words = readOptions(given);
  if (words === null) return 0;
  const files = words.paths.length ? words.paths : [undefined];
  const several = words.lines || files.length > 1;
  const writer = new Writer(process.stdout);
  const read = words.back ? readJson : readReports;
  for (const file of files) {
    const input = file === undefined ? process.stdin : fs.createReadStream(pathOf(file));
    const begin = () => (words.back ? backWriter(writer) : forwardWriter(writer, several, file));
    await read(input, begin, { after: () => writer.drain(), several }).catch((error) => {
      throw failureOf(error, file, files.length === 1);
    });
  }
  await writer.flush();
  return 0;
}

run('jslit-json', main, { starts: false });
