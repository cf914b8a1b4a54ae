'use strict';
// All faults of a text, one after the other. The first is the program's. For the next the program is asked of the text in which the lines
// at fault are written as was said; where nothing was said to write, a line stands in for them, and from there on only those faults are
// told that a line has by itself, since another one may come of what stands in.

const { codeOf, linesOf } = require('./forms.js');
const { advice, foreign } = require('./refusals.js');
const { Scene } = require('./scene.js');
const { Place } = require('./slips.js');
const limits = require('../../limits.json');

const MOST = 12;
const ALONE = [2, 3, 5, 8];  // the kinds that hang on no other line

// A text as it is mended: for each of its lines the number that it has in the text that was given.
class Mended {
  constructor(text) {
    this.lines = linesOf(text);
    this.numbers = this.lines.map((_, at) => at + 1);
    this.scene = new Scene([...this.lines]);
  }

  text() {
    return this.lines.map((line) => `${line}\n`).join('');
  }

  // Puts lines in place of so many lines; the last of them has the number of the first that was there.
  put(number, count, text) {
    const made = text.split('\n');
    const own = this.numbers[number - 1];
    this.lines.splice(number - 1, count, ...made, ...Array(count - 1).fill(''));
    this.numbers.splice(number - 1, 1, ...made.map(() => own));
  }

  // A sentence on the lines as they are mended, with the numbers that they have in the text that was given.
  renumbered(sentence) {
    return sentence.replace(/\b(lines?) (\d+(?:, \d+)*)/g, (whole, word, list) => {
      const numbers = list.split(', ').map((number) => this.numbers[number - 1]);
      return numbers.includes(undefined) ? whole : `${word} ${numbers.join(', ')}`;
    });
  }
}

// A line for one of which nothing is said what to write, so that those after it can be looked at; or null.
function standIn(kind, line) {
  const code = codeOf(line).trim();
  const load = /^(r[0-7])\s*=/.exec(code);
  if (kind === 2 && /^[\t\r\x20-\x7e]*$/.test(code)) return codeOf(line);
  if (kind === 5 || /^bytes\b/.test(code)) return `bytes ${limits.block}`;
  if (/^(?:\}\s*)?(?:else|elif)\b/.test(code)) return '} else {';
  if ([2, 10, 11, 12].includes(kind) || /^(?:test|agent|check|exists|forall)\b/.test(code) || code === '') return null;
  if (load) return `${load[1]} = U8[0]`;
  return /^(?:if|while|for)\b.*\{$/.test(code) ? 'if r0 == 0 {' : '';
}

// What the program prints of a fault that jslit-text tells.
const printedOf = (fault) => `refused ${fault.number} ${fault.word}${fault.line === null ? '' : ` line ${fault.line}`}`;

// The faults after the first, of which the program printed `printed`: {printed, advice}, with the numbers of lines as the text was given.
// `ask` gives what jslit-text says of a text.
async function* more(printed, text, told, ask) {
  const mended = new Mended(text);
  const seen = new Set();
  let own = true;
  for (let said = { printed, told }; seen.size < MOST;) {
    const found = /^refused (\d+) \w+ line (\d+)/.exec(said.printed ?? '');
    if (!found) return;
    const [kind, number] = [Number(found[1]), Number(found[2])];
    const line = mended.numbers[number - 1];
    const given = advice(said.printed, mended.text(), said.told, { place: new Place(mended.scene, line) });
    if (seen.size && (own || ALONE.includes(kind))) {
      // Of a line without a form the sentences have the numbers of the given text already.
      const sentences = kind === 3 ? given.said : given.said.map((sentence) => mended.renumbered(sentence));
      yield {
        printed: `refused ${kind} ${said.printed.split(' ')[2]} line ${line}`,
        advice: { ...given, line, from: mended.numbers[given.from - 1], said: sentences },
      };
    }
    const instead = given.write ?? standIn(kind, mended.lines[number - 1]);
    const key = `${number} ${mended.lines[number - 1]}`;
    if (instead === null || seen.has(key) || foreign(text)) return;
    own = own && given.write !== null;
    seen.add(key);
    mended.put(given.write === null ? number : given.from, given.lines, instead);
    const other = await ask(mended.text());
    said = { printed: other.fault && printedOf(other.fault), told: other };
  }
}

module.exports = { MOST, more, printedOf };
