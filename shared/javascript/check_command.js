'use strict';
// The command jslit-check, with results in the forms that hosted runs take: a file of JUnit's XML, and annotations, a command of a workflow
// on a line.

const fs = require('fs');
const path = require('path');
const { TOP, run } = require('./command.js');
const { Failure, plain } = require('./lines.js');
const { readOptions } = require('./options.js');
const { inOrder } = require('./pool.js');
const { builtProgram, namedProgram } = require('./programs.js');
const { FIELDS, Runs, printedName, spoken, write } = require('./runs.js');
const { pathOf, shown } = require('./system.js');
const { filesIn } = require('./tests_in.js');

// A text as XML has it, without what it can't have, however it is written.
const escape = (text) => String(text).replace(/[\0-\x08\x0b\x0c\x0e-\x1f\ud800-\udfff\ufffe\uffff]/gu, '?')
  .replace(/&/g, '&amp;').replace(/>/g, '&gt;').replace(/</g, '&lt;');

const attribute = (text) => `"${escape(text).replace(/[\n\r\t"]/g, (sign) => `&#${sign.charCodeAt(0)};`)}"`;

// A suite with a case for each file, in a file that is written anew.
class Junit {
  constructor(name) {
    Object.assign(this, { to: fs.openSync(pathOf(name), 'w'), cases: [], failed: 0, seconds: 0 });
  }

  take({ file, test, fault, line, seconds = 0 }) {
    const head = `  <testcase classname="jslit-check" name=${attribute(test || file)} file=${attribute(file)} time="${seconds.toFixed(4)}"`;
    this.seconds += seconds;
    if (fault === undefined) {
      this.cases.push(`${head}/>\n`);
      return;
    }
    this.failed += 1;
    const said = escape(`${file}${line === undefined ? '' : `, line ${line}`}: ${fault}`);
    this.cases.push(`${head}>\n    <failure message=${attribute(fault)}>${said}</failure>\n  </testcase>\n`);
  }

  close() {
    const counts = `tests="${this.cases.length}" failures="${this.failed}" errors="0" time="${this.seconds.toFixed(4)}"`;
    const head = `<?xml version="1.0" encoding="UTF-8"?>\n<testsuite name="jslit-check" ${counts}>\n`;
    fs.writeFileSync(this.to, `${head}${this.cases.join('')}</testsuite>\n`);
    fs.closeSync(this.to);
  }
}

// A text in a command of a workflow, which per cent signs, ends of lines and these would end.
const inCommand = (text, more = '') => [...text].map((sign) => (
  `%\r\n${more}`.includes(sign) ? `%${sign.charCodeAt(0).toString(16).toUpperCase().padStart(2, '0')}` : sign)).join('');

// The command that shows a fault at its line of the file.
function annotation({ file, line, fault }) {
  const place = `file=${inCommand(shown(file), ':,')}${line === undefined ? '' : `,line=${line}`}`;
  return `::error ${place},title=jslit-check::${inCommand(fault)}`;
}

function lineOf(result) {
  const { file, fault, isRecorded, notes = [] } = result;
  const said = fault === undefined ? `${spoken(result)}, ${result.seconds.toFixed(3)} s` : `FAILED: ${fault}`;
  const told = notes.map((note) => `\n  note, line ${note.line}: ${note.said}`).join('');
  return `${printedName(file)}: ${said}${isRecorded ? ', recorded' : ''}${told}`;
}

// Prints what is asked for of each result; the last line, and whether a file failed.
async function told(results, words, junit) {
  const counts = { passed: 0, failed: 0, seen: 0 };
  const isData = words.tsv || words.json;
  const beside = isData ? process.stderr : process.stdout;
  if (words.tsv) await write(`${FIELDS.join('\t')}\n`);
  for await (const result of results) {
    counts[result.result] += 1;
    if (isData) await write(`${words.tsv ? result.tsv() : result.json()}\n`);
    else if (words.paths.length || result.fault || result.notes?.length) await write(`${lineOf(result)}\n`);
    if (words.annotate && result.fault) await write(`${annotation(result)}\n`, beside);
    junit?.take(result);
  }
  junit?.close();
  const seen = counts.seen ? `, ${counts.seen} without a line // expect` : '';
  await write(`${counts.passed} passed, ${counts.failed} failed${seen}\n`, beside);
  return Number(counts.failed > 0);
}

async function main(given) {
  const words = readOptions(given, { apart: [['tsv', 'json'], ['tsv', 'notes']] });
  if (words === null) return 0;
  const program = await namedProgram(words.program);
  if (words.notes) await builtProgram('jslit-why');
  const isStated = words.strict || words.paths.length === 0;
  const runs = new Runs(program, words.limit, { isStated, records: words.record, notes: words.notes });
  if (words.junit?.endsWith('.lit')) throw new Failure(2, `--junit ${plain(words.junit)}: that would overwrite a test`);
  const junit = words.junit ? new Junit(words.junit) : null;
  const paths = words.paths.length ? words.paths : [path.join(TOP, 'litmus')];
  return told(inOrder(filesIn(paths), words.jobs, (file) => runs.result(file)), words, junit);
}

run('jslit-check', main, { isQuiet: true });
