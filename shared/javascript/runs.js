'use strict';
// Runs of the program over many files: what it says of each, and whether that is what the file expects.

const fs = require('fs');
const path = require('path');
const { bytesIn, TOP } = require('./command.js');
const limits = require('../limits.json');
const { notesOfReport, reported } = require('./noting.js');
const { testIn } = require('./programs.js');
const { runOf } = require('./running.js');
const { pathOf, statusOf, strerror } = require('./system.js');
const { VERSION } = require('./version.js');

const EXPECT = /(?<![^\n])\/\/ expect:([^\n]*)/g;
const FORM = /^ verdict ([a-z]+), outcomes ([0-9]+), data race ([a-z]+)[ \t\r]*$/;
const NAME = /(?<![^\n])[ \t]*test[ \t]+([A-Za-z0-9_]+)/;
const LAST = /outcomes ([0-9]+)\nverdict ([a-z]+)\ndata race ([a-z]+)\n$/;
const REFUSED = /^refused ([0-9]+) ([a-z_]+)(?: line ([0-9]+))?(?![^\n])/;
const [BEGINNING, END] = [4096, 256];   // signs of what a run prints that are kept
const FORM_OF_JSON = 1;   // docs/schemas/check.json
const FIELDS = ['file', 'test', 'result', 'verdict', 'outcomes', 'data_race', 'seconds', 'fault', 'number', 'word', 'line'];

// Writes a text, in which bytes of a name that are no UTF-8 stand as they are; gives when that is done.
const write = (text, stream = process.stdout) => new Promise((done) => { stream.write(pathOf(text), () => done()); });

// A name on one line, and without tabs or what would move a cursor.
function printedName(name) {
  const inside = name.startsWith(`${TOP}/`) ? name.slice(TOP.length + 1) : name;
  return inside.replace(/\\/g, '\\\\').replace(/\t/g, '\\t').replace(/\n/g, '\\n')
    .replace(/[\0-\x1f\x7f-\x9f]/g, (sign) => `\\x${sign.charCodeAt(0).toString(16).padStart(2, '0')}`);
}

const spoken = ({ verdict, outcomes, data_race: race }) => `verdict ${verdict}, outcomes ${outcomes}, data race ${race}`;
function canBe(file, mode) {
  try {
    fs.accessSync(pathOf(file), mode);
    return true;
  } catch {
    return false;
  }
}

// What is wrong with a file before it is run, or null.
function faultOf(file) {
  try {
    const kind = fs.statSync(pathOf(file));
    if (kind.isDirectory()) return canBe(file, fs.constants.R_OK | fs.constants.X_OK) ? 'a folder' : "a folder that can't be read";
    if (!kind.isFile()) return 'no regular file';
    return canBe(file, fs.constants.R_OK) ? null : "can't be read";
  } catch (error) {
    return error.code === 'ENOENT' ? 'no such file' : strerror(error).toLowerCase();
  }
}

// What came of a file: `result` is passed, failed, or seen, where the file states nothing to compare.
class Result {
  constructor(file) {
    Object.assign(this, { file, result: 'failed', isRecorded: false });
  }

  fails(fault) {
    return Object.assign(this, { result: 'failed', fault });
  }

  tsv() {
    return FIELDS.map((name) => printedName(String(this[name] ?? ''))).join('\t');
  }

  json() {
    const told = { ...this, data_race: this.data_race && this.data_race === 'yes' };
    const fields = [...FIELDS, 'notes'].map((name) => [name, told[name]]);
    return JSON.stringify({ form: FORM_OF_JSON, jslit: VERSION, ...Object.fromEntries(fields) });
  }
}

// Runs of a program. Where `isStated` a file has to have its line; where `records` one that has none gets it; where `notes` each that has a
// report gets its notes.
class Runs {
  constructor(program, limit, wanted) {
    Object.assign(this, { program, limit }, wanted);
  }

  async result(file) {
    const result = new Result(file);
    const unread = faultOf(file);
    if (unread) return result.fails(unread);
    let data;
    try {
      data = bytesIn(file);
    } catch (error) {
      return result.fails(strerror(error));
    }
    const text = data.toString('latin1');
    const expected = [...text.matchAll(EXPECT)].map(([, stated]) => stated);
    result.test = NAME.exec(text)?.[1];
    const fault = await this.run(data, result);
    if (this.notes && !fault && !file.endsWith('.js')) {
      const outcomes = await reported(this.program, [], data, this.limit * 1000);
      result.notes = await notesOfReport(data, await testIn('the text', data), outcomes);
    }
    if (fault && expected.length === 0) return result.fails(fault);
    const wanted = expected.length === 1 ? FORM.exec(expected[0]) : null;
    if (expected.length ? !wanted : this.isStated) return result.fails("no line '// expect: verdict V, outcomes N, data race R'");
    if (fault) return result.fails(fault);
    if (wanted) return compare(result, wanted);
    result.result = 'seen';
    return this.records ? recorded(file, text, result) : result;
  }

  // Runs the program on a text; what is wrong, or null.
  async run(data, result) {
    const ofJavascript = [path.join(TOP, 'bin', 'jslit-js'), '--program', this.program, '--brief', '--', result.file];
    const [command, ...words] = result.file.endsWith('.js') ? ofJavascript : [this.program];
    let [first, last] = ['', ''];
    const take = (piece) => {
      if (first.length < BEGINNING) first = (first + piece).slice(0, BEGINNING);
      last = (last + piece).slice(-END);
    };
    const begun = performance.now();
    let run;
    try {
      run = await runOf(command, words, data, { limit: this.limit * 1000, take });
    } catch (error) {
      return error.message;
    }
    result.seconds = Number(((performance.now() - begun) / 1000).toFixed(4));
    if (run.late) return `no report within ${this.limit} seconds`;
    const [answer, refused] = [LAST.exec(last), REFUSED.exec(first)];
    if (refused) Object.assign(result, { number: Number(refused[1]), word: refused[2], line: refused[3] && Number(refused[3]) });
    const [said] = (first + run.said).trim().split('\n');
    if (statusOf(run) || !answer) return `status ${statusOf(run)}, ${printedName(said || 'no report')}`;
    Object.assign(result, { outcomes: Number(answer[1]), verdict: answer[2], data_race: answer[3] });
    return null;
  }
}

// Whether a result is what its file states.
function compare(result, [, verdict, outcomes, race]) {
  const stated = spoken({ verdict, outcomes: BigInt(outcomes), data_race: race });
  result.result = 'passed';
  return stated === spoken(result) ? result : result.fails(`expected ${stated}; the program says ${spoken(result)}`);
}

// Writes the line of a result behind the comments that the file begins with.
function recorded(file, text, result) {
  const line = `// expect: ${spoken(result)}${text.includes('\r\n') ? '\r\n' : '\n'}`;
  const place = /^(?:[ \t]*\/\/[^\n]*\n)*/.exec(text)[0].length;
  if (text.length + line.length > limits.text) return result.fails(`with its line it would have more than ${limits.text} bytes`);
  try {
    const target = fs.realpathSync.native(pathOf(file), { encoding: 'buffer' });
    const aside = Buffer.concat([target, Buffer.from(`.${process.pid}`)]);
    fs.writeFileSync(aside, text.slice(0, place) + line + text.slice(place), { encoding: 'latin1', flag: 'wx' });
    fs.chmodSync(aside, fs.statSync(target).mode & 0o7777);
    fs.renameSync(aside, target);
  } catch (error) {
    return result.fails(`its line can't be written: ${strerror(error)}`);
  }
  return Object.assign(result, { isRecorded: true });
}

module.exports = { FIELDS, Runs, printedName, spoken, write };
