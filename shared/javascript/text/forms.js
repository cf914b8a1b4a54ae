'use strict';
// Lines of a text that the program refuses, held against the forms of a line, docs/FORMAT.md: which token can't stand, and what could.
// This is the one module that knows these forms beside the program. A text is a string with a character for each byte.

const limits = require('../../limits.json');

const PIECE = /([A-Za-z_][A-Za-z0-9_]*)|([0-9]+)|(==|!=|&&|\|\||[=!\[\](){},.])|([\t\r ]+)|([^])/g;
const END = 'the end of the line';

const FORMS = [
  'test NAME', 'bytes NUM', 'agent NAME', 'REG = VIEW [ NUM ]', 'VIEW [ NUM ] = NUM',
  'REG = Atomics . load ( VIEW , NUM )', 'Atomics . store ( VIEW , NUM , NUM )', 'REG = Atomics . exchange ( VIEW , NUM , NUM )',
  'REG = Atomics . compareExchange ( VIEW , NUM , NUM , NUM )', 'REG = DV . getUint8 ( NUM )', 'REG = DV . getUint16 ( NUM , true )',
  'REG = DV . getUint32 ( NUM , true )', 'DV . setUint8 ( NUM , NUM )', 'DV . setUint16 ( NUM , NUM , true )',
  'DV . setUint32 ( NUM , NUM , true )', 'if REG == NUM {', 'if REG != NUM {', '} else {', '}', 'check COND',
].map((form) => form.split(' '));

// The calls of Atomics, and those of them that read.
const CALLS = FORMS.flatMap((form) => (form.includes('Atomics') ? [form[form.indexOf('Atomics') + 2]] : []));
const READING = CALLS.filter((call) => FORMS.some((form) => form[0] === 'REG' && form.includes(call)));

// In a condition: what may stand, and what comes after it.
const STATES = {
  unit: { '!': 'unit', '(': 'unit', NAME: 'dot' },
  dot: { '.': 'register' },
  register: { REG: 'sign' },
  sign: { '==': 'number', '!=': 'number' },
  number: { NUM: 'joint' },
  joint: { '&&': 'unit', '||': 'unit', ')': 'joint' },
};

const spokenOf = (terminal) => ({
  NAME: 'a name', REG: `a register r0 to r${limits.registers - 1}`, NUM: 'a number', VIEW: 'U8, U16 or U32', [END]: END,
}[terminal] ?? `\`${terminal}\``);

// The line without its comment.
const codeOf = (line) => line.split('//')[0];

function tokensOf(line) {
  const tokens = [];
  for (const piece of codeOf(line).matchAll(PIECE)) {
    const [text, word, number, symbol, blanks] = piece;
    if (blanks !== undefined) continue;
    let kind = word ? 'word' : number ? 'number' : symbol ? 'symbol' : 'wrong';
    if ((word && word.length > limits.word) || (number && (/^0./.test(number) || number.length > limits.digits))) kind = 'wrong';
    tokens.push({ kind, text, column: piece.index });
  }
  return tokens;
}

function fits(terminal, token) {
  if (terminal === 'NAME') return token.kind === 'word';
  if (terminal === 'NUM') return token.kind === 'number';
  if (terminal === 'REG') return /^r[0-7]$/.test(token.text);
  if (terminal === 'VIEW') return /^U(?:8|16|32)$/.test(token.text);
  return token.kind !== 'wrong' && terminal === token.text;
}

// As firstFault, of the tokens after `check`.
function conditionFault(tokens) {
  let state = 'unit';
  let depth = 0;
  const waysOf = () => Object.entries(STATES[state]).filter(([terminal]) => terminal !== ')' || depth > 0);
  for (const [place, token] of tokens.entries()) {
    const ways = waysOf();
    const taken = ways.find(([terminal]) => fits(terminal, token));
    if (!taken) return { place, could: [...ways.map(([terminal]) => terminal), ...(state === 'joint' && depth === 0 ? [END] : [])] };
    depth += { '(': 1, ')': -1 }[taken[0]] ?? 0;
    [, state] = taken;
  }
  if (state === 'joint' && depth === 0) return null;
  return { place: tokens.length, could: waysOf().map(([terminal]) => terminal) };
}

// The place among the tokens of the first one that can't stand, and what could stand there; null where the line has a form. The place
// after the last token is that of what is missing.
function firstFault(line) {
  const tokens = tokensOf(line);
  if (tokens.length === 0) return null;
  if (tokens[0].text === 'check') {
    const found = conditionFault(tokens.slice(1));
    return found && { ...found, place: found.place + 1 };
  }
  let alive = FORMS;
  for (const [place, token] of tokens.entries()) {
    const could = [...new Set(alive.map((form) => form[place] ?? END))];
    alive = alive.filter((form) => place < form.length && fits(form[place], token));
    if (alive.length === 0) return { place, could };
  }
  if (alive.some((form) => form.length === tokens.length)) return null;
  return { place: tokens.length, could: [...new Set(alive.map((form) => form[tokens.length]))] };
}

// The forms that the line has so far, before the token that can't stand, as docs/FORMAT.md writes them.
function begun(line, place) {
  const tokens = tokensOf(line);
  return FORMS.filter((form) => form.length >= place && form.slice(0, place).every((terminal, at) => fits(terminal, tokens[at])))
    .map((form) => form.join(' ').replace(/ ?([.()\[\],]) ?/g, '$1').replaceAll(',', ', '));
}

function spoken(terminals) {
  const words = terminals.map(spokenOf);
  return [words.slice(0, -1).join(', '), words[words.length - 1]].filter(Boolean).join(' or ');
}

// Where the token stands in the line, and where what is missing would.
function columnOf(line, place) {
  const tokens = tokensOf(line);
  return place < tokens.length ? tokens[place].column : codeOf(line).trimEnd().length;
}

// The lines of a text; none stands behind the byte 10 that ends it.
function linesOf(text) {
  const lines = text.split('\n');
  return lines.length > 1 && lines[lines.length - 1] === '' ? lines.slice(0, -1) : lines;
}

module.exports = { CALLS, READING, begun, codeOf, columnOf, firstFault, linesOf, spoken, tokensOf };
