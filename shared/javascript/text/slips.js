'use strict';
// The common slips of one line that has no form, and what to write instead. A rule is a pattern, what stands in its place, and why;
// where null stands in its place the rule only says why. Rules go over the line one after another, and what comes out is shown where it
// has a form. What stands in a match's place, and why, may be a function of the match and of the line's place in its text.

const asking = require('./asking.js');
const { CALLS, READING, codeOf, firstFault } = require('./forms.js');
const { WIDE } = require('./cells.js');
const { QUESTION } = require('./scene.js');

const VIEW = /\b(?:[iu](8|16|32)|I(8|16|32)|U?[iI]nt(8|16|32)(?:Array)?|ui(8|16|32))\b/;
const METHODS = {
  load: 'load', read: 'load', get: 'load', store: 'store', write: 'store', set: 'store', exchange: 'exchange', swap: 'exchange',
  xchg: 'exchange', compareexchange: 'compareExchange', cas: 'compareExchange', cmpxchg: 'compareExchange',
  compareandswap: 'compareExchange', compareandexchange: 'compareExchange',
};
const HEADWORDS = ['test', 'bytes', 'agent', 'check'];

const decimal = (match) => String(BigInt(match[0].replace(/n$/, '').replaceAll('_', '')));

// -1 as the access's size has it.
function unsigned(match) {
  const size = /U(?:int)?(8|16|32)\b/.exec(match.input);
  return String(2n ** BigInt(size ? size[1] : 32) - BigInt(match[1]));
}

// How many letters have to be left out, put in, changed, or swapped with the next one, to make one word of the other.
function distance(one, other) {
  const rows = Array.from({ length: one.length + 1 }, (_, at) => [at]);
  rows[0] = Array.from({ length: other.length + 1 }, (_, at) => at);
  for (let at = 1; at <= one.length; at += 1) {
    for (let to = 1; to <= other.length; to += 1) {
      const same = one[at - 1] === other[to - 1] ? 0 : 1;
      const isSwapped = at > 1 && to > 1 && one[at - 1] === other[to - 2] && one[at - 2] === other[to - 1];
      rows[at][to] = Math.min(rows[at - 1][to] + 1, rows[at][to - 1] + 1, rows[at - 1][to - 1] + same,
        isSwapped ? rows[at - 2][to - 2] + 1 : Infinity);
    }
  }
  return rows[one.length][other.length];
}

// The word that a misspelled one stands for: that with one letter in five wrong, and one at least.
const near = (word, words) => words.find((each) => distance(word.toLowerCase(), each.toLowerCase()) <= Math.max(1, each.length / 5));

function methodOf(word) {
  const name = word.replaceAll('_', '').toLowerCase();
  return METHODS[name] ?? near(name, CALLS);
}

// What stands for an operation of Atomics that isn't there, by its line.
const SIGNS_OF = { add: '+', sub: '-', and: '&', or: '|', xor: '^', increment: '+', fetch_add: '+', fetchAdd: '+' };
function operation(match) {
  const [, view = 'U8', place = '0', operand = '1'] = /\((\w+)\s*,\s*(\d+)\s*(?:,\s*(\d+))?/.exec(match.input.slice(match.index)) ?? [];
  return `there is no Atomics.${match[1]}: where n is the value that is there, \`r0 = Atomics.compareExchange(${view}, ${place}, n, `
    + `n ${SIGNS_OF[match[1]]} ${operand})\` with the numbers put in does it, and outcomes in which r0 isn't n stand for no execution: `
    + 'ask for r0 == n in `check`; jslit-js takes the JavaScript as it is';
}

// Where a line stands: the scene of its text, and its number; `comments` say which cells the names on the line have.
class Place {
  constructor(scene, number) {
    Object.assign(this, { scene, number, comments: [] });
  }

  // The load in a register that is free.
  loads(match) {
    const register = this.scene.register(this.number);
    return register ? `${register} = ${match[1]}` : match[0];
  }

  // A load whose own name in place of a register gets one.
  takes(match) {
    const register = /^(?:r[0-7]|U8|U16|U32)$/.test(match[1]) ? null : this.scene.register(this.number, match[1]);
    return register ? `${register} = ${match[2]}` : match[0];
  }

  free(match) {
    return this.scene.register(this.number, match[0]) ?? match[0];
  }

  // An if whose own name in place of a register gets the register that this name has.
  looks(match) {
    const register = this.scene.registerOf(this.number, match[2]);
    return register ? `${match[1]}${register}` : match[0];
  }

  twoLines(match) {
    return 'a line is one access, and only numbers are stored: '
      + `first \`${this.scene.register(this.number) ?? 'r0'} = ${match[1]}\`, and then for each value an \`if\` with a store of it`;
  }

  // The element of the block that an array of the writer's own has for its own.
  cell(name, index) {
    const found = this.scene.cells.at(name, index);
    if (found && !this.comments.includes(found.said)) this.comments.push(found.said);
    return found;
  }
}

const element = (match, place) => {
  const found = place.cell(match[1], match[2]);
  return found ? `${found.view}[${found.place}]` : match[0];
};
const argument = (match, place) => {
  const found = place.cell(match[2], match[3]);
  return found ? `${match[1]}${found.view}, ${found.place}` : match[0];
};

const COMMENTS = [
  [/\/\*.*?\*\/|\(\*.*?\*\)|\/\*.*$|\(\*.*$/, '', 'a comment begins with `//` and ends with its line'],
  [/\s*(?:#|--|(?<![\w)\]]\s*)%).*$/, '', 'a comment begins with `//`'],
];
const SIGNS = [
  [/^(while|for|do|loop|repeat|until|goto)\b/, null, 'there are no loops: write the turns out, one in the `if` of the other'],
  [/^(?:print|printf|console|alert|postMessage)\b.*$/, null, 'nothing is printed: the report shows all registers'],
  [/[;,]\s*$/, '', 'no `;` and no `,` ends a line'],
  [/^(?:\}\s*){2,}$/, null, 'each `}` stands on a line of its own'],
  [/["'](\d+)["']/, '$1', 'numbers have no quotes'],
  [/(?<=[=,])\s*(true|false)\s*$|(?<=[=,])\s*(true|false)(?=\s*\{)/, (m) => ((m[1] || m[2]) === 'true' ? ' 1' : ' 0'),
    'values are numbers: 1 and 0'],
  [/\b([1-9])[eE]([1-8])\b/, (m) => m[1] + '0'.repeat(Number(m[2])), 'numbers are decimal, of digits alone'],
  [/;/, null, 'each statement stands on a line of its own, without `;`'],
  [/===/, '==', 'equal is `==`'],
  [/!==/, '!=', 'unequal is `!=`'],
  [/<>/, '!=', 'unequal is `!=`'],
  [/:=|<-/, '=', '`=` puts a value into its place'],
  [/^(?:let|const|var|int|auto|u?int\d+_t)\s+/, '', "registers aren't declared: there are r0 to r7"],
  [/\b0[xX][0-9a-fA-F]+n?\b|\b0[bB][01]+n?\b|\b0[oO][0-7]+n?\b|\b[1-9][0-9]*n\b|\b[0-9]+(?:_[0-9]+)+n?\b/, decimal,
    'numbers are decimal, of digits alone'],
  [/\b0+([1-9][0-9]*)\b|\b0+(0)\b/, (m) => m[1] || m[2], 'a number has no 0 in front'],
  [/(?<=[=,(])\s*-\s*(\d+)/, (m) => (m[0][0] === ' ' ? ' ' : '') + unsigned(m),
    'numbers have no sign: -1 is 255 in one byte, 65535 in two and 4294967295 in four'],
  [/\b\d+\.\d+\b/, null, 'numbers are whole'],
  [/\b[A-Za-z_]\w{32,}/, null, 'a word has at most 32 letters, digits and `_`'],
];
const ELEMENT = new RegExp(`\\b(?!U8\\b|U16\\b|U32\\b|DV\\b|${WIDE})([A-Za-z_]\\w*)\\[(\\d+)\\]`);
const VIEWS = [
  [VIEW, (match) => `U${match.slice(1).find(Boolean)}`, 'the arrays are U8, U16 and U32; an Int32Array touches the same bytes as U32'],
  [new RegExp(WIDE), null, 'there are no floating and no 64-bit arrays: only U8, U16 and U32, so 64 bits are two accesses of U32'],
  [/\b(?:Uint8ClampedArray|U8C)\b/, 'U8', 'a Uint8ClampedArray touches the same bytes as U8'],
  [/\bU(8|16|32)\((\d+)\)/, 'U$1[$2]', 'an element stands in brackets'],
  [/\[\s*-\d+/, null, 'an index counts from 0, and has no sign'],
  [/^\[\w+\]\s*=|=\s*\[\w+\]$/, null, 'memory has no names: byte n is `U8[n]`'],
  [ELEMENT, element, 'memory is U8, U16 and U32, views of the whole block: each name has cells of its own in it'],
  [ELEMENT, null, (match, place) => place.scene.cells.why(match[1])],
  [/\bU(8|16|32)\[r[0-7].*?\]/, null, 'an index is a number: for each value of the register write an `if` with the access in it'],
  [/\b(?:Atomics\.)?(fence|mfence|barrier|atomic_thread_fence)\b/, null,
    'there are no fences: only accesses through Atomics order anything'],
];
const ALL_USED = 'what is read goes to a register, always, and this agent uses all eight: let one of them go';
const EACH = CALLS.join('|');
const READS = `(?:Atomics\\.(?:${READING.join('|')})\\(|DV\\.get|U(?:8|16|32)\\[\\d+\\]$)`;
const MISSING = Object.keys(SIGNS_OF).filter((name) => !CALLS.includes(name)).join('|');
const ACCESSES = `the accesses are Atomics.${CALLS.slice(0, -1).join(', ')} and ${CALLS[CALLS.length - 1]}`;
const ARRAY = `(Atomics\\.\\w+\\()\\s*(?!U8\\b|U16\\b|U32\\b|${WIDE})([A-Za-z_]\\w*)\\s*,\\s*(\\d+)`;
const ATOMICS = [
  [new RegExp(`^(r\\d\\s*=\\s*)?(${EACH})\\s*\\(`), (m) => `${m[1] ?? ''}Atomics.${m[2]}(`, ACCESSES],
  [new RegExp(`Atomics\\.(${EACH})\\((?=\\d)`), 'Atomics.$1(U8, ', 'array and index are two arguments'],
  [/\b[aA]tomics?\s*(?:\.|::)\s*/, 'Atomics.', ACCESSES],
  [new RegExp(`Atomics\\.(${MISSING})\\b`), null, operation],
  [/Atomics\.isLockFree\b/, null, 'there is no Atomics.isLockFree: it accesses nothing, so leave it out'],
  [/Atomics\.(wait|waitAsync|notify|pause)\b/, null, 'there is no waiting and no waking: load the flag, and go on in an `if`'],
  [/Atomics\.(\w+)\s*\(/, ([whole, word]) => (methodOf(word) ? `Atomics.${methodOf(word)}(` : whole), ACCESSES],
  [/Atomics\.(\w+)\(U(8|16|32)\[(\d+)\]/, 'Atomics.$1(U$2, $3', 'array and index are two arguments'],
  [new RegExp(ARRAY), argument, 'the array is U8, U16 or U32, views of the whole block: each name has cells of its own in it'],
  [new RegExp(ARRAY), null, (match, place) => place.scene.cells.why(match[2])],
  [new RegExp('^(?:U\\d+\\[\\d+\\]\\s*=|Atomics\\.store\\(U\\d+,\\s*\\d+,|DV\\.set\\w+\\(\\d+,)\\s*'
    + `(U\\d+\\[\\d+\\]|(?:Atomics\\.(?:${READING.join('|')})|DV\\.get\\w+)\\([^()]*\\))(?:, true)?\\)?$`), null,
  (match, place) => place.twoLines(match)],
  [new RegExp(`^(${READS}.*)`), (m, place) => place.loads(m),
    'what is read goes to a register, always'],
  [new RegExp(`^${READS}`), null, ALL_USED],
  [/^r\d\s*=\s*(Atomics\.store\(|DV\.set)/, '$1', 'a store leaves nothing in a register'],
  [/^r\d\s*=\s*U\d+\[\d+\]\s*=/, null, 'a store leaves nothing in a register: two lines'],
];
const LOWEST = 'two and four bytes need the argument `true`: the lowest byte stands first';
const DATA_VIEW = [
  [/\b(?:dv|DataView|view|dataView)\.(?=[gs]et)/, 'DV.', "the DataView's name is DV"],
  [/\b([gs]et)U?[iI]nt(8|16|32)\b/, '$1Uint$2', "the DataView's accesses are getUint8, 16, 32 and setUint8, 16, 32"],
  [/\b([gs]et)(?:BigU?[iI]nt64|Float\w+)\b/, null, 'there are no floating and no 64-bit accesses'],
  [/(DV\.[gs]etUint(?:16|32)\([^)]*), *false\)/, '$1, true)', 'the lowest byte stands first: the last argument is `true`, never `false`'],
  [/(DV\.getUint(?:16|32)\(\s*\d+)\s*\)/, '$1, true)', LOWEST],
  [/(DV\.setUint(?:16|32)\(\s*\d+\s*,\s*\d+)\s*\)/, '$1, true)', LOWEST],
  [/(DV\.[gs]etUint8\([^)]*), *(?:true|false)\)/, '$1)', 'one byte has no order, and no `true`'],
  [/\bDV\[(\d+)\]/, null, 'a DataView is used by its calls: `r0 = DV.getUint8(0)`, `DV.setUint8(0, 1)`'],
];
const EIGHT = 'an agent has eight registers, r0 to r7';
const STATEMENTS = [
  [/^init\b\s*(?:U\d+\[\d+\]|\w+)\s*=\s*0+$/, null, 'leave the line out: memory begins as 0'],
  [/^init\b/, null, 'memory begins as 0: a first value is stored by an agent, before a store through Atomics that the others load'],
  [/\bR([0-7])\b/, 'r$1', 'registers are r0 to r7, small letters'],
  [/\br(?:[89]|\d\d+)\b/, (m, place) => place.free(m), EIGHT],
  [/\br(?:[89]|\d\d+)\b/, null, EIGHT],
  [/^(return|break|continue)\b/, null, 'nothing leaves early: put the rest into an `else` part'],
  [/(\+\+|--|[-+*|&^]=)/, null, 'there is no arithmetic: a load, and a store of a number'],
  [/^(?!(?:test|agent)\b).*(?<=[\w\])])\s*[-+*^%]\s*(?=[\w(])/, null,
    'there is no arithmetic: the values stored and compared are plain numbers'],
  [/^(U\w+\[\d+\]\s*=|Atomics\.(?:store|exchange)\(U\w+,\s*\d+,|DV\.set\w+\(\d+,)\s*r\d/, null,
    'only numbers are stored: for each value of the register write an `if` with a store in it'],
  [/^(U\d+\[\d+\])\s*==\s*(\d+)$/, '$1 = $2', '`=` puts a value into its place, and `==` compares'],
  [/^(r[0-7])\s*==\s*(?=U\d|Atomics|DV)/, '$1 = ', '`=` puts a value into its place, and `==` compares'],
  [/^r\d\s*=\s*(r\d|\d+)$/, null, 'a register only takes what an access reads'],
  [/^([A-Za-z_]\w*)\s*=\s*((?:U8|U16|U32|Atomics|DV)\b.*)$/, (m, place) => place.takes(m), 'registers are named r0 to r7'],
  [/^(?!if\b|check\b|test\b|agent\b|bytes\b|exists|forall)([a-z])\s*=\s*(\d+)$/, null,
    'memory has no names: byte n is `U8[n]`, so write `U8[0] = 1`'],
  [/^(\w+)\s*=\s*([a-z])$/, null, 'memory has no names: byte n is `U8[n]`, so write `r0 = U8[0]`'],
];
const OWN_IF = /^(if\s+!?\s*)(?!r[0-7]\b|R[0-7]\b|U\d|Atomics|DV)([A-Za-z_]\w*)(?=\s*(?:[=!<>{]|$))/;
const BRANCHES = [
  [/^(?:If|IF)\b/, 'if', '`if` has small letters'],
  [/^\{$/, null, 'no line is `{` alone: it ends the line of an `if`, and an agent\'s statements have no braces'],
  [/^\}?\s*else\s*if\b|^elif\b|^elsif\b/, null, 'there is no `else if`: `} else {`, on the next line `if .. {`, and one `}` more'],
  [/^else\s*[{:]?$/, '} else {', '`}` and `else {` stand on one line, in place of the two lines'],
  [/^\}\s*else\s*:?$/, '} else {', 'an else line ends with `{`'],
  [/^(if\b.*\{)\s*\S.*$/, null, '`if .. {`, each statement and `}` stand on lines of their own'],
  [/^if\s*\((.*)\)\s*(?:\{|then)?$/, 'if $1 {', 'an if has no parentheses'],
  [/^(if\b.*?)\s*(?:then|:|\bdo)\s*\{?$/, '$1 {', 'an if line ends with `{`'],
  [/^(if\b.*[^{\s])$/, '$1 {', 'an if line ends with `{`, and its end is a line `}`'],
  [/^(if\b.*)(&&|\|\||\band\b|\bor\b)/, null,
    'an if has one comparison: put one `if` into the other (and), or the statements into both (or)'],
  [/^if\s+(?:!\s*)?(?:U\d|Atomics|DV)/, null, 'an if looks at a register: load it on the line before, as in `r0 = U8[0]`'],
  [/^if\s+\w+\.(\w+)/, 'if $1', "in an if the register is the agent's own"],
  [/^(if\b.*)\bR([0-7])\b/, '$1r$2', 'registers are r0 to r7, small letters'],
  [OWN_IF, (m, place) => place.looks(m), 'registers are named r0 to r7'],
  [OWN_IF, null, 'an if looks at a register of its agent, r0 to r7'],
  [/^if\s+(r\d)\s*\{$/, 'if $1 != 0 {', 'an if compares with a number'],
  [/^if\s+!\s*(r\d)\s*\{$/, 'if $1 == 0 {', 'an if compares with a number'],
  [/^if\s+(r\d)\s*=\s*(\d+)/, 'if $1 == $2', 'a comparison is `==` or `!=`'],
  [/^if\s+(\d+)\s*(==|!=)\s*(r\d)/, 'if $3 $2 $1', 'the register stands first'],
  [/^if\s+r\d\s*(?:==|!=)\s*r\d/, null, 'a register is compared with a number: an `if` for each value'],
  [/^if\s+.*[<>]/, null, 'comparisons are `==` and `!=` alone'],
  [/^(\}|end|endif|fi|end if)$/, '}', 'an if ends with `}`'],
];

function cleanName(words) {
  const name = words.trim().replace(/\W+/g, '_').replace(/^_+|_+$/g, '') || 'A';
  return (/^[0-9]/.test(name) ? '_' : '') + name;
}

const THREAD = 'a thread is an `agent` with a name';
const HEADS = [
  [/^(?:thread|worker|process|proc|Agent|AGENT|cpu)\s*(\w+)\s*[:{]?$/, (m) => `agent ${/^[0-9]/.test(m[1]) ? 'P' : ''}${m[1]}`, THREAD],
  [/^P(\d+)\s*:?$/, 'agent P$1', THREAD],
  [/^agent\s+\w+\s*\{\s*[^\s}].*$/, null, "an agent's line ends with its name, and each statement stands on a line of its own"],
  [/^(agent\s+\w+)\s*(?:[:(].*|\{\s*\}?)$/, '$1', "an agent's line ends with its name; its statements follow, up to the next agent"],
  [/^(?:Test|TEST)\s+(?=\S)/, 'test ', '`test` has small letters'],
  [/^(?:size|byte|block|memory|bytes|Bytes|BYTES)\s*[:=]?\s*(\d+)\s*(?:bytes?)?$/, 'bytes $1', "the block's size is `bytes` and a number"],
  [/^(?:name|Test|TEST|test)\s*[:=]\s*/, 'test ', "a test's name stands after `test`"],
  [/^(test|agent)\s+["'](.*?)["']$/, '$1 $2', 'a name has no quotes'],
  [/^agent\s+(\d\w*)$/, 'agent P$1', 'a name has letters, digits and `_`, and no digit first'],
  [/^(test|agent)\s+(\S.*)$/, (m) => `${m[1]} ${cleanName(m[2])}`, 'a name has letters, digits and `_`, and no digit first'],
  [/^test$/, 'test mine', 'a test has a name'],
  [/^agent$/, 'agent A', 'an agent has a name'],
  [/^bytes$/, 'bytes 8', 'the block has a size'],
  [/^([A-Za-z]{3,7})(?=\s)/, (m) => near(m[1], HEADWORDS) ?? m[0], (m) => `did you mean \`${near(m[1], HEADWORDS)}\`?`],
  [/^(?:async |static |export )?(?:function|class|new|import|require)\b/, null,
    'this is JavaScript: a litmus text has only the lines of docs/FORMAT.md'],
];

// One line that is several: a pattern, the lines, of which each may have slips of its own, and why.
const ACCESS = '(?:[A-Za-z_]\\w*\\s*=\\s*)?(?:\\w+\\[\\d+\\]|(?:Atomics|DV)\\.\\w+\\([^()]*\\))(?:\\s*=\\s*\\d+)?';
const LOAD = '((?:Atomics|DV)\\.\\w+\\([^()]*\\)|\\w+\\[\\d+\\])';
const COMPARED = '(r[0-7]\\s*[!=]==?\\s*\\d+)';
const statementsOf = (text) => text.split(';').map((each) => each.trim()).filter(Boolean);
const SPLITS = [
  [/^(agent\s+\w+)\s*\{\s*([^\s{}][^{}]*?)\s*\}?$/, (m) => [m[1], ...statementsOf(m[2])],
    "an agent's line ends with its name, and each statement stands on a line of its own"],
  [/^(if\b[^{]*\{)\s*([^\s{}][^{}]*?)\s*\}$/, (m) => [m[1], ...statementsOf(m[2]), '}'],
    '`if .. {`, each statement and `}` stand on lines of their own'],
  [/^(?:\}?\s*else\s*if|elif|elsif)\b\s*(.*)$/, (m) => ['} else {', `if ${m[1]}`],
    'there is no `else if`: `} else {`, on the next line `if .. {`, and one `}` more'],
  [new RegExp(`^if\\s*\\(?\\s*${COMPARED}\\s*(?:&&|and)\\s*${COMPARED}\\s*\\)?\\s*\\{?$`), (m) => [`if ${m[1]} {`, `if ${m[2]} {`],
    'an if has one comparison: put one `if` into the other, with one `}` more'],
  [new RegExp(`^if\\s*\\(?\\s*(!?)\\s*${LOAD}\\s*((?:[!=]==?)\\s*\\w+)?\\s*\\)?\\s*\\{?$`), (m, place) => {
    const register = place.scene.register(place.number);
    return register ? [`${register} = ${m[2]}`, `if ${register} ${m[3] ?? `${m[1] ? '==' : '!='} 0`} {`] : null;
  }, 'an if looks at a register: load it on the line before'],
  [new RegExp(`^(${ACCESS})\\s*;\\s*(\\S.*)$`), (m) => [m[1], ...statementsOf(m[2])],
    'each statement stands on a line of its own, without `;`'],
  [new RegExp(`^(${ACCESS})\\s+((?:[A-Za-z_]\\w*\\s*=\\s*)?(?:\\w+\\[\\d+\\]|(?:Atomics|DV)\\.).*)$`), (m) => [m[1], m[2]],
    'two statements are two lines'],
];

// The lines that a line is several of, as advice; null where it is one.
function split(code, place) {
  for (const [pattern, linesOf, why] of SPLITS) {
    const found = pattern.exec(code);
    const lines = found && linesOf(found, place);
    if (!lines) continue;
    const each = lines.map((line) => (firstFault(line) === null ? { said: [], write: line } : advice(line, place)));
    const write = each.every((one) => one.write !== null) ? each.map((one) => one.write).join('\n') : null;
    return { said: [...new Set([why, ...each.flatMap(({ said }) => said)])], write };
  }
  return null;
}

// Rules look at a line again and again from each of its signs, so of a longer one, which nobody wrote by hand, they say nothing.
const LONGEST = 1000;

function rulesFor(code, place) {
  if (QUESTION.test(code)) return [...COMMENTS, ...SIGNS, ...asking.rules(place)];
  if (/^(?:if|If|IF|\}|\{|else|elif)/.test(code)) return [...COMMENTS, ...SIGNS, ...VIEWS, ...BRANCHES];
  return [...COMMENTS, ...SIGNS, ...VIEWS, ...DATA_VIEW, ...ATOMICS, ...STATEMENTS, BRANCHES[BRANCHES.length - 1], ...HEADS];
}

// A match as `exec` gives it, of what `replace` hands over: the groups, the offset and the whole.
function matchOf(given) {
  const whole = given.findLastIndex((each) => typeof each === 'number');
  return Object.assign(given.slice(0, whole), { input: given[whole + 1] });
}

function changedBy(pattern, instead, code, place) {
  const every = new RegExp(pattern.source, `${pattern.flags}g`);
  const by = typeof instead === 'string' ? instead : (...given) => instead(matchOf(given), place);
  return code.replace(every, by).trim();
}

// Why the line has no form, one sentence for each slip found, and the line to write, or null.
function advice(line, place) {
  let code = codeOf(line).split(/\s+/).filter(Boolean).join(' ');
  if (code.length > LONGEST) return { said: [], write: null };
  const several = firstFault(code) === null || QUESTION.test(code) ? null : split(code, place);
  if (several) return several;
  const said = [];
  place.comments = [];
  for (const [pattern, instead, why] of rulesFor(code, place)) {
    const found = code === '' || firstFault(code) !== null ? pattern.exec(code) : null;
    if (!found) continue;
    const changed = instead === null ? code : changedBy(pattern, instead, code, place);
    if (changed === code && instead !== null) continue;
    said.push(typeof why === 'string' ? why : why(found, place));
    code = changed;
  }
  const fixed = said.length && code !== '' && firstFault(code) === null ? code.split(/\s+/).join(' ') : null;
  const comment = place.comments.length ? ` // ${place.comments.join(', ')}` : '';
  return { said: [...new Set(said)], write: fixed === null ? null : fixed + comment };
}

module.exports = { Place, advice };
