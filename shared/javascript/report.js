'use strict';
// What jslit prints, as parts: a report begins, has outcomes and ends; anything else is one part. `ReportReader` makes
// them of lines, and `linesOf` lines of them; `jsonOf` gives their JSON. docs/ENGINES.md has the form.

const { Fault, eachLine } = require('./lines.js');
const { VERSION } = require('./version.js');

const FORM = 1;   // the number of the JSON's form
const WORD = '[A-Za-z_][A-Za-z0-9_]{0,31}';
const NUMBER = '(?:0|[1-9][0-9]{0,14})';
const EVENT = `(?:init\\[${NUMBER}\\]|${WORD}\\.${NUMBER})`;
const GIVEN = `((?: ${WORD}\\.r[0-7]=${NUMBER})*)`;
const FORMS = {
  refused: new RegExp(`^refused (${NUMBER}) ([a-z_]+)(?: line (${NUMBER}))?$`),
  test: new RegExp(`^test (${WORD})$`),
  outcome: new RegExp(`^outcome${GIVEN}$`),
  class: new RegExp(`^(?:met|unmet) (?:none|outcome${GIVEN})$`),
  from: new RegExp(`^  from (${EVENT})((?: ${EVENT})+)$`),
  order: new RegExp(`^  order((?: ${EVENT})+)$`),
  outcomes: new RegExp(`^outcomes (${NUMBER})$`),
  verdict: /^verdict (always|sometimes|never)$/,
  race: /^data race (yes|no)$/,
  interleaving: new RegExp(`^interleaving${GIVEN}$`),
  meets: /^meets (yes|no)$/,
};

// A list of words, each with a blank before it.
const words = (text) => (text === '' ? [] : text.slice(1).split(' '));

// The grammar, as generators that are given line after line, and null at the end.
class ReportReader {
  // `give` is called with each part: {begins}, {outcome}, {ends} or {all}.
  constructor(give) {
    Object.assign(this, { give, registers: null, number: 0 });
    this.steps = this.document();
    this.steps.next();
  }

  line(line) {
    this.number += 1;
    if (this.steps.next(line).done && line !== null) this.wrong(line, 'the end');
  }

  wrong(line, wanted) {
    const seen = line === null ? 'it ends' : `it is ${JSON.stringify(line.slice(0, 60))}`;
    throw new Fault(`line ${this.number} of the report should be ${wanted}, and ${seen}`);
  }

  match(line, form, wanted) {
    const found = line === null ? null : FORMS[form].exec(line);
    return found || this.wrong(line, wanted);
  }

  // The values of a line, whose registers are those of the first line that has some.
  values(text) {
    const pairs = words(text).map((word) => word.split('='));
    const registers = pairs.map((pair) => pair[0]);
    this.registers ??= registers;
    if (registers.join(' ') !== this.registers.join(' ')) {
      throw new Fault(`line ${this.number} of the report has other registers than the lines before`);
    }
    return pairs.map((pair) => Number(pair[1]));
  }

  * document() {
    const first = yield;
    if (first === null) return this.give({ all: { kind: 'empty' } });
    const refused = FORMS.refused.exec(first);
    if (refused) {
      const all = { kind: 'refusal', number: Number(refused[1]), name: refused[2] };
      if (refused[3] !== undefined) all.line = Number(refused[3]);
      return yield* this.last({ all });
    }
    const test = this.match(first, 'test', '`test` or `refused`')[1];
    const line = yield;
    if (line !== null && line.startsWith('met ')) return yield* this.quick(test, line);
    if (line !== null && line.startsWith('interleaving')) return yield* this.schedule(test, line);
    return yield* this.report(test, line);
  }

  * report(test, first) {
    let line = first;
    let begun = false;
    const begin = () => {
      if (!begun) this.give({ begins: { kind: 'report', test, registers: this.registers || [] } });
      begun = true;
    };
    for (let found; line !== null && (found = FORMS.outcome.exec(line)) !== null; line = yield) {
      const values = this.values(found[1]);
      begin();
      this.give({ outcome: yield* this.example(values) });
    }
    begin();
    const ends = { count: Number(this.match(line, 'outcomes', '`outcome` or `outcomes`')[1]) };
    ends.verdict = this.match(yield, 'verdict', '`verdict`')[1];
    const race = yield;
    if (race === null) return this.give({ ends });
    ends.data_race = this.match(race, 'race', '`data race` or the end')[1] === 'yes';
    return yield* this.last({ ends });
  }

  * example(values) {
    const from = [];
    let line = yield;
    for (let found; line !== null && (found = FORMS.from.exec(line)) !== null; line = yield) {
      from.push({ event: found[1], sources: words(found[2]) });
    }
    return { values, from, order: words(this.match(line, 'order', '`  from` or `  order`')[1]) };
  }

  * quick(test, first) {
    const all = { kind: 'quick', test, registers: [] };
    for (const [name, given] of [['met', first], ['unmet', null]]) {
      const line = given ?? (yield);
      const found = this.match(line, 'class', `\`${name} outcome\` or \`${name} none\``);
      if (!line.startsWith(`${name} `)) this.wrong(line, `\`${name}\``);
      all[name] = line.endsWith(' none') ? null : yield* this.example(this.values(found[1] || ''));
    }
    all.registers = this.registers || [];
    all.verdict = this.match(yield, 'verdict', '`verdict`')[1];
    return yield* this.last({ all });
  }

  * schedule(test, line) {
    const values = this.values(this.match(line, 'interleaving', '`interleaving`')[1]);
    const meets = this.match(yield, 'meets', '`meets`')[1] === 'yes';
    return yield* this.last({ all: { kind: 'schedule', test, registers: this.registers, values, meets } });
  }

  // The last part, given where the text ends here.
  * last(part) {
    const line = yield;
    if (line !== null) this.wrong(line, 'the end');
    return this.give(part);
  }
}

const paired = (registers, values) => registers.map((register, place) => [register, values[place]]);

// A report of which a part of the outcomes alone is kept, however many there are. `outcomes` are those from place `first` on, as many as
// `most`: each with its number, from 1, its values by register, the sources of its reads and its memory-order; of a quick report with its
// group too; or what `as` makes of these. `other` has what the other lines say.
class KeptReport {
  constructor({ first = 0, most = 0, as = (outcome) => outcome }) {
    Object.assign(this, { first, most, as, place: 0, outcomes: [], other: {}, registers: [] });
    this.reader = new ReportReader((part) => this.give(part));
    this.rest = '';
  }

  give(part) {
    if (part.begins) {
      this.registers = part.begins.registers;
      this.other.test = part.begins.test;
    } else if (part.outcome) this.keep(part.outcome);
    else if (part.ends) this.end(part.ends);
    else this.giveAll(part.all);
  }

  end({ count, verdict, data_race: race }) {
    Object.assign(this.other, { count, verdict, ...(race === undefined ? {} : { race: race ? 'yes' : 'no' }) });
  }

  giveAll(all) {
    if (all.kind === 'refusal') [this.other.refused] = LINES_OF_ALL.refusal(all);
    else if (all.kind === 'schedule') {
      this.registers = all.registers;
      Object.assign(this.other, { test: all.test, interleaving: paired(all.registers, all.values), meets: all.meets ? 'yes' : 'no' });
    } else if (all.kind === 'quick') {
      this.registers = all.registers;
      Object.assign(this.other, { test: all.test, verdict: all.verdict });
      for (const group of ['met', 'unmet']) if (all[group] !== null) this.keep(all[group], group);
    }
  }

  keep({ values, from, order }, group) {
    this.place += 1;
    if (this.place <= this.first || this.place > this.first + this.most) return;
    this.outcomes.push(this.as({
      number: this.place, values: paired(this.registers, values), from: from.map(({ event, sources }) => [event, sources]), order,
      ...(group ? { group } : {}),
    }));
  }

  // Takes a piece of what the program prints.
  take(piece) {
    const lines = (this.rest + piece).split('\n');
    this.rest = lines.pop();
    for (const line of lines) this.reader.line(line);
  }

  close() {
    if (this.rest !== '') this.reader.wrong(this.rest, 'a whole line');
    this.reader.line(null);
    return this;
  }
}

// To keep the values of all outcomes alone, and what the exploring of JavaScript takes of them, or the number of a refusal.
const VALUES = { most: Infinity, as: ({ values }) => values.map(([, value]) => value) };
const valuesIn = ({ registers, outcomes, other }) => (
  other.refused ? { refused: Number(other.refused.split(' ')[1]) } : { registers, outcomes, race: other.race === 'yes' });

// What is no ASCII in a JSON text, as in a file's name, by its number.
const ascii = (text) => text.replace(/[^\0-\x7f]/g, (sign) => `\\u${sign.charCodeAt(0).toString(16).padStart(4, '0')}`);

const inside = (record) => JSON.stringify(record).slice(1, -1);

// The JSON of a report: what each part adds to it. An outcome stands on a line of its own, or the whole on one line.
function jsonWriter(onOneLine = false, file = undefined) {
  const end = onOneLine ? '' : '\n';
  const head = inside({ version: FORM, jslit: VERSION, ...(file === undefined ? {} : { file }) });
  let separator = end;
  return (part) => {
    if (part.all) return ascii(`{${head},${inside(part.all)}}\n`);
    if (part.begins) return ascii(`{${head},${inside(part.begins)},"outcomes":[`);
    if (part.ends) return `${end}],${inside(part.ends)}}\n`;
    const text = separator + JSON.stringify(part.outcome);
    separator = `,${end}`;
    return text;
  };
}

function outcomeLines(head, registers, outcome) {
  const lines = [head + registers.map((register, place) => ` ${register}=${outcome.values[place]}`).join('')];
  if (outcome.from) {
    for (const { event, sources } of outcome.from) lines.push(`  from ${event} ${sources.join(' ')}`);
    lines.push(`  order ${outcome.order.join(' ')}`);
  }
  return lines;
}

// Anything but true and false makes a line that is none of a report.
const yesNo = (truth) => (truth === true ? 'yes' : truth === false ? 'no' : JSON.stringify(truth));

const LINES_OF_ALL = {
  empty: () => [],
  refusal: (all) => [`refused ${all.number} ${all.name}${all.line === undefined ? '' : ` line ${all.line}`}`],
  schedule: (all) => [`test ${all.test}`, ...outcomeLines('interleaving', all.registers, { values: all.values }),
    `meets ${yesNo(all.meets)}`],
  quick: (all) => [`test ${all.test}`,
    ...['met', 'unmet'].flatMap((name) => (all[name] === null ? [`${name} none`]
      : outcomeLines(`${name} outcome`, all.registers, all[name]))),
    `verdict ${all.verdict}`],
};

// The lines of a part; the registers are those with which the report began.
function linesOf(part, registers) {
  if (part.begins) return [`test ${part.begins.test}`];
  if (part.outcome) return outcomeLines('outcome', registers, part.outcome);
  if (part.ends) {
    // Those of earlier versions of the program say nothing of data races.
    const { count, verdict, data_race: race } = part.ends;
    return [`outcomes ${count}`, `verdict ${verdict}`, ...(race === undefined ? [] : [`data race ${yesNo(race)}`])];
  }
  if (!Object.hasOwn(LINES_OF_ALL, part.all.kind)) throw new Fault(`no kind of report: ${JSON.stringify(part.all.kind)}`);
  return LINES_OF_ALL[part.all.kind](part.all);
}

// Gives each part of the report that a stream holds, or of `several`, one after the other; `begin` is called for each, and returns what its
// parts are given to, `after` after each line. No line of a report but its first begins as that does.
async function readReports(stream, begin, { after = () => undefined, several = false } = {}) {
  let reader = new ReportReader(begin());
  await eachLine(stream, (line) => {
    if (several && reader.number > 0 && /^(?:test|refused) /.test(line)) {
      reader.line(null);
      reader = new ReportReader(begin());
    }
    reader.line(line);
    return after();
  });
  reader.line(null);
}

module.exports = { FORM, KeptReport, ReportReader, VALUES, jsonWriter, linesOf, readReports, valuesIn };
