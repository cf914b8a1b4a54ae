'use strict';
// What there is to say of a refusal beside the line that the program prints: where in its line, why, and what to write.
//
// Advice is {line, column, said, write, lines, from}: `line` is null where the whole text is refused or a schedule, and `column` where
// there is nothing to show in the line; `said` are sentences, and `write` is what to write instead: lines, '' where the line is to be
// left out, or null. It stands for so many `lines` of the text, beginning with the one before by `from`.

const { COUNTS } = require('./counting.js');
const { begun, codeOf, columnOf, firstFault, linesOf, spoken, tokensOf } = require('./forms.js');
const { Scene } = require('./scene.js');
const { Place, advice: slipsOf } = require('./slips.js');
const structure = require('./structure.js');
const { plain } = require('../lines.js');
const { spelled } = require('../signs.js');

const SEVERAL = 4;  // lines that an if may be written on

const adviceOf = (line, column, said, write = null, lines = 1, from = line) => ({ line, column, said, write, lines, from });

// What a text is that isn't one of this format at all, or null.
function foreign(text) {
  if (text.includes('\0')) return 'the file has bytes 0: it is no text, or UTF-16; save it as plain ASCII';
  if (text.includes('\r') && !text.includes('\n')) {
    return 'the lines end with CR alone, so all of the text is one line: save it with LF or CR LF at the ends of lines';
  }
  const start = text.trimStart().slice(0, 60);
  if (/^(?:X86(?:_64)?|AArch64|ARM|PPC|RISCV|MIPS|C|LISA|Bell|JAVA)\s+\S+\s*\n/.test(start) || /^[\t\r ]*P0[\t\r ]*[|(]/m.test(text)) {
    return 'this is a test for herd7: each column or P0, P1 is an `agent` here, each location a byte `U8[n]`, `exists` is '
      + '`check`; docs/FORMAT.md, "From herd7", says what differs';
  }
  if (/new (SharedArrayBuffer|Worker|\w+Array)\b|=>|\bfunction\b|addEventListener/.test(text.replace(/^[\t\r ]*check\b.*$/gm, ''))) {
    return 'this is JavaScript: jslit-js takes it as it is; or keep the accesses alone, under an `agent` line for each worker, as in '
      + 'docs/FORMAT.md, "From JavaScript"';
  }
  return null;
}

// How many lines an if stands on that was written on several.
function several(lines, number) {
  const first = codeOf(lines[number - 1]).trim();
  if (!/^if\b/.test(first) || first.endsWith('{')) return 1;
  for (const [at, line] of lines.slice(number, number + SEVERAL).entries()) {
    const code = codeOf(line).trim();
    const joined = lines.slice(number - 1, number + 1 + at).map(codeOf).join('');
    const isWhole = joined.split('(').length === joined.split(')').length;
    if (code === '{' || (code.endsWith('{') && !/^(?:if|\}|agent)\b/.test(code) && isWhole)) return at + 2;
  }
  return 1;
}

// The slips of a line: what is said, what to write, for how many lines that stands, and from which on.
function ofLine(lines, number, place) {
  const count = several(lines, number);
  if (count > 1) {
    const joined = lines.slice(number - 1, number - 1 + count).map((line) => codeOf(line).trim()).join(' ').split(/\s+/).join(' ');
    const { said, write } = firstFault(joined) === null ? { said: [], write: joined } : slipsOf(joined, place);
    const whole = `an if is one line, here lines ${place.number} to ${place.number + count - 1}`;
    if (write) return { said: [whole, ...said], write, count, from: number };
  }
  const found = slipsOf(lines[number - 1], place);
  const isElse = /^else\b/.test(codeOf(lines[number - 1]).trim()) && number > 1 && codeOf(lines[number - 2]).trim() === '}';
  return isElse && found.write ? { ...found, count: 2, from: number - 1 } : { ...found, count: 1, from: number };
}

function syntax(lines, number, text, placeInText) {
  const line = lines[number - 1];
  const found = firstFault(line);
  if (found === null) return adviceOf(number, null, []);
  const token = tokensOf(line)[found.place];
  const what = token ? `\`${[...spelled(token.text)].slice(0, 40).join('')}\` can't stand here` : 'something is missing here';
  const first = `${what}: ${spoken(found.could)} could`;
  const column = columnOf(line, found.place);
  const whole = foreign(text);
  if (whole) return adviceOf(number, column, [first, whole]);
  const alone = structure.braceAlone(lines, number);
  if (alone) return adviceOf(number, column, [first, alone], '');
  const { said, write, count, from } = ofLine(lines, number, placeInText);
  if (said.length) return adviceOf(number, column, [first, ...said], write, write ? count : 1, write ? from : number);
  const forms = found.place ? begun(line, found.place) : [];
  return adviceOf(number, column, [first, forms.length ? `lines that begin so: ${forms.map((form) => `\`${form}\``).join('; ')}`
    : 'docs/FORMAT.md has the forms of a line, "Forms of a line"']);
}

function ofSchedule(test, schedule) {
  const names = test.agents.map(({ name }) => name);
  const wrong = schedule.split(',').find((member) => !names.includes(member)) ?? '';
  if (names.includes(wrong.trim())) return `\`${plain(wrong)}\` has a blank: names are joined by commas alone, as ${names.join(',')}`;
  if (wrong === '') return 'a comma has no name beside it: the empty schedule is the empty text';
  return `\`${plain(wrong)}\` is no agent of the test; its agents are ${names.join(', ')}`;
}

// The advice on the line `refused ..` that the program printed for a text, of which `told` is what it says of the text. Of a text that was
// mended `place` is where the line stood in the text that was given.
function advice(printed, text, told, { schedule = null, place = null } = {}) {
  const [, kind, line] = /^refused (\d+) \w+(?: line (\d+))?/.exec(printed);
  if (kind === '20') return adviceOf(null, null, [ofSchedule(told.test, schedule)]);
  const lines = linesOf(text);
  if (line === undefined) return adviceOf(null, null, COUNTS[kind](told.test, lines.map((each) => codeOf(each).trim())));
  const number = Number(line);
  if (kind === '3') return syntax(lines, number, text, place ?? new Place(new Scene(lines), number));
  const shown = lines[number - 1];
  const found = structure.ADVICE[kind](lines, number);
  let { column } = found;
  if (kind === '1' || kind === '12' || shown.trim() === '') column = null;
  else if (column === null) column = shown.length - shown.trimStart().length;
  const write = kind === '4' ? structure.instead(lines, number) : kind === '2' ? structure.asciiOf(shown) : null;
  return adviceOf(number, column, [(kind === '2' ? foreign(text) : null) ?? found.said], write);
}

module.exports = { advice, foreign };
