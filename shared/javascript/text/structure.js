'use strict';
// What to do about a line that has a form and is refused: where it stands, its numbers, its names. Each function gets the lines of the
// text and the number of the line at fault, and gives the column of the token that can't stand, or null, and what to do.

const { codeOf, tokensOf } = require('./forms.js');
const limits = require('../../limits.json');
const { signsOf, spelled } = require('../signs.js');

const wordsOf = (line) => tokensOf(line).map(({ text }) => text);

// What the lines before a line say: its agents with their registers, the open ifs and the block's size.
class Shape {
  constructor(lines, end) {
    Object.assign(this, { agents: [], registers: new Map(), open: [], size: null, test: null, check: null });
    lines.slice(0, end).forEach((line, at) => this.take(at + 1, tokensOf(line)));
  }

  take(number, tokens) {
    const words = tokens.map(({ text }) => text);
    const [head = ''] = words;
    const whole = words.join(' ');
    if (head === 'test') this.test = this.test ?? number;
    else if (head === 'bytes' && tokens[1]?.kind === 'number') this.size = Number(words[1]);
    else if (head === 'agent' && words.length > 1) {
      this.agents.push({ name: words[1], number });
      if (!this.registers.has(words[1])) this.registers.set(words[1], new Set());
    } else if (head === 'check') this.check = number;
    else if (head === 'if') this.open.push({ number, other: null });
    else if (whole === '} else {' && this.open.length) this.open[this.open.length - 1].other = number;
    else if (whole === '}' && this.open.length) this.open.pop();
    else if (/^r[0-7]$/.test(head) && this.agents.length) this.registers.get(this.agents[this.agents.length - 1].name).add(head);
  }

  names() {
    return this.agents.map(({ name }) => name);
  }

  innermost() {
    return this.open[this.open.length - 1];
  }
}

function unopened(lines, number) {
  const early = lines.slice(0, number - 1).flatMap((line, at) => (wordsOf(line).join(' ') === '}' ? [at + 1] : []));
  const last = early[early.length - 1];
  return `no \`if\` is open here${last === undefined ? "; an agent's statements have no braces"
    : `: the \`}\` on line ${last} ended the last one; with \`else\` it is one line, \`} else {\``}`;
}

function misplaced(lines, number) {
  const before = new Shape(lines, number - 1);
  const words = wordsOf(lines[number - 1]);
  const whole = words.join(' ');
  const open = before.innermost();
  const said = () => {
    if (before.check) return `the check on line ${before.check} is the last line: join conditions by \`&&\` and \`||\` in one check`;
    if (!before.test) return 'the first line is `test NAME`, and the second `bytes N`';
    if (words[0] === 'test') return 'a text begins with one line `test NAME`, and has no other';
    if (words[0] === 'bytes') return '`bytes N` stands once, on the line after `test`';
    if (before.size === null) return 'the line after `test` is `bytes N`, the size of the block: it is missing';
    if ((words[0] === 'agent' || words[0] === 'check') && open) {
      const part = open.other ? `, with the else on line ${open.other},` : '';
      return `the \`if\` on line ${open.number}${part} isn't ended: put its \`}\` before this line (${before.open.length} open)`;
    }
    if (before.agents.length === 0) return 'statements and the check stand after a line `agent NAME`';
    if (whole === '} else {' && open) return `the \`if\` on line ${open.number} has an else on line ${open.other} already`;
    return words[0] === '}' ? unopened(lines, number) : "it can't stand here";
  };
  return { column: null, said: said() };
}

// What to write for a line that is misplaced: '' where it is to be left out, or null.
function instead(lines, number) {
  const before = new Shape(lines, number - 1);
  const words = wordsOf(lines[number - 1]);
  if (before.check || !before.test || before.size === null) return null;
  if ((words[0] === 'agent' || words[0] === 'check') && before.open.length) {
    return [...before.open.map(() => '}'), lines[number - 1].trim()].join('\n');
  }
  return words.join(' ') === '}' && before.agents.length && before.open.length === 0 ? '' : null;
}

// What to say of a line that is `{` alone, or null.
function braceAlone(lines, number) {
  if (codeOf(lines[number - 1]).trim() !== '{') return null;
  const above = lines.slice(0, number - 1).map((line) => codeOf(line).trim()).filter(Boolean).pop() ?? '';
  return above.startsWith('agent') ? "an agent's statements have no braces: they follow its line, up to the next agent"
    : 'no line is `{` alone: it ends the line of an `if`';
}

const wordColumn = (line, place) => tokensOf(line)[place].column;

function duplicateAgent(lines, number) {
  const name = wordsOf(lines[number - 1])[1];
  const first = new Shape(lines, number - 1).agents.find((agent) => agent.name === name).number;
  return {
    column: wordColumn(lines[number - 1], 1),
    said: `the agent on line ${first} is named so too: take another name, or put the statements there`,
  };
}

// The tokens that are numbers, and the size of the line's access, or null.
function numbersOf(line) {
  const size = /\b(?:U|[gs]etUint)(8|16|32)\b/.exec(codeOf(line));
  return { tokens: tokensOf(line).filter(({ kind }) => kind === 'number'), bits: size ? Number(size[1]) : null };
}

function literalRange(lines, number) {
  const line = lines[number - 1];
  const { tokens, bits } = numbersOf(line);
  const compares = ['if', 'check'].includes(tokensOf(line)[0].text);
  const greatest = compares || bits === null ? limits.compared : 2 ** bits - 1;
  const wrong = (compares ? tokens : tokens.slice(1)).find(({ text }) => Number(text) > greatest);
  const wider = bits !== null && bits < 32 && !compares ? `; U${bits * 2} takes more` : '';
  const least = wrong ? `; ${Number(wrong.text)} modulo ${greatest + 1} is ${Number(wrong.text) % (greatest + 1)}` : '';
  return { column: wrong ? wrong.column : null, said: `the greatest number here is ${greatest}${least}${wider}` };
}

function outOfBlock(lines, number) {
  const code = codeOf(lines[number - 1]);
  const { tokens, bits } = numbersOf(lines[number - 1]);
  const [size, block, index] = [bits / 8, new Shape(lines, number).size, Number(tokens[0].text)];
  const isView = code.includes('DV');
  const need = isView ? index + size : (index + 1) * size;
  const whole = Math.floor(block / size);
  const inView = block >= size ? `a DataView's number is the first byte, here 0 to ${block - size}` : 'no access of this size fits';
  const inArray = block >= size ? `an index counts elements and not bytes, here 0 to ${whole - 1}`
    : 'the block has no whole element of this size';
  const element = Math.floor(index / size);
  const byte = bits > 8 && element < whole && !isView ? `; byte ${index} is in U${bits}[${element}]` : '';
  const larger = need <= limits.block ? `; with \`bytes ${need}\` the line stands` : '';
  return { column: tokens[0].column, said: `${isView ? inView : inArray}${byte}${larger}` };
}

function unknownName(lines, number) {
  const before = new Shape(lines, number - 1);
  const tokens = tokensOf(lines[number - 1]);
  for (const [at, token] of tokens.entries()) {
    const register = tokens[at + 2];
    if (register === undefined || token.kind !== 'word' || !/^r[0-7]$/.test(register.text)) continue;
    if (!before.names().includes(token.text)) {
      return { column: token.column, said: `the agents are ${before.names().join(', ')}; \`${token.text}\` is none of them` };
    }
    const written = [...before.registers.get(token.text)].sort();
    if (!written.includes(register.text)) {
      const has = written.length ? `writes only ${written.join(', ')}` : 'reads nothing, and so writes no register';
      return { column: register.column, said: `agent ${token.text} ${has}: ask for a register that some access reads into` };
    }
  }
  return { column: null, said: "the check names an agent or a register that isn't there" };
}

function tooDeep(lines, number) {
  if (tokensOf(lines[number - 1])[0].text === 'if') {
    const opened = new Shape(lines, number - 1).open.map((each) => each.number).join(', ');
    return { column: null, said: `${limits.ifs} ifs can be open, here those on lines ${opened}: end one before, or leave a test out` };
  }
  return { column: null, said: `a comparison has at most ${limits.depth} \`!\` and \`(\` around it: `
    + 'leave out those that change nothing, `!(a && b)` is `!a || !b`' };
}

function missingPart(lines) {
  const shape = new Shape(lines, lines.length);
  const known = shape.agents.flatMap(({ name }) => [...shape.registers.get(name)].sort().map((register) => `${name}.${register}`));
  const said = () => {
    if (!shape.test) {
      return 'the text is empty: the lines are `test NAME`, `bytes N`, `agent NAME` with its statements, and `check CONDITION`';
    }
    if (shape.size === null) return 'after `test NAME` come `bytes N`, the agents and the check';
    if (!shape.agents.length) return 'after `bytes N` come the agents, each a line `agent NAME` and its statements, and the check';
    if (shape.open.length) {
      return `the \`if\` on line ${shape.innermost().number} isn't ended: a line \`}\` is missing; and then the last line, `
        + '`check CONDITION`';
    }
    if (!known.length) return 'the last line is a check, on a register that some agent reads into, as `r0 = U8[0]`: none does';
    return `the last line is missing, the question: \`check ${known[known.length - 1]} == 0\`, of the registers ${known.join(', ')}`;
  };
  return { column: null, said: said() };
}

const CONTROLS = { 0: 'null', 7: 'bell', 8: 'backspace', 11: 'vertical tab', 12: 'form feed', 27: 'escape', 127: 'delete' };
const MARKS = ['\xef\xbb\xbf', '\xff\xfe', '\xfe\xff'];
// ASCII for signs that editors and web pages put in its place.
const PLAIN = {
  '\u2018': "'", '\u2019': "'", '\u201c': '"', '\u201d': '"', '\u2013': '-', '\u2014': '-', '\u00a0': ' ', '\u2227': '&&', '\u2228': '||',
  '\u00ac': '!', '\u2260': '!=', '\u2026': '..', '\u00d7': 'x',
};
const isAllowed = (sign) => sign === '\t' || sign === '\r' || (sign >= ' ' && sign <= '~');

// The sign that begins with the byte in this column, of a line with a character for each byte, where it is UTF-8; null where it isn't.
function signAt(line, column) {
  const bytes = /^[\x80-\xff]+/.exec(line.slice(column, column + 8));
  if (!bytes) return null;
  const sign = [...spelled(bytes[0])][0];
  return sign === '\ufffd' && !bytes[0].startsWith(signsOf(sign)) ? null : sign;
}

// The line in ASCII, where each sign that isn't is a mark of bytes at its beginning, or has another in its place; else null.
function asciiOf(line) {
  let rest = MARKS.reduce((text, mark) => (text.startsWith(mark) ? text.slice(mark.length) : text), line);
  let made = '';
  while (rest !== '') {
    const sign = isAllowed(rest[0]) ? rest[0] : signAt(rest, 0);
    if (sign === null || !(isAllowed(sign) || Object.hasOwn(PLAIN, sign))) return null;
    made += isAllowed(sign) ? sign : PLAIN[sign];
    rest = rest.slice(isAllowed(sign) ? 1 : signsOf(sign).length);
  }
  return made;
}

// The line as characters of one byte each, as the text is read.
function notAscii(lines, number) {
  const line = lines[number - 1];
  const column = [...line].findIndex((sign) => !isAllowed(sign));
  if (column < 0 || MARKS.some((mark) => line.startsWith(mark))) {
    return { column: 0, said: 'the file begins with a byte order mark: save it as plain ASCII, or as UTF-8 without BOM' };
  }
  const byte = line.charCodeAt(column);
  const sign = signAt(line, column);
  if (byte < 128) {
    const named = Object.hasOwn(CONTROLS, byte) ? ` (${CONTROLS[byte]})` : '';
    return { column, said: `byte ${byte}${named} is a control character, and may not stand in a comment either: leave it out` };
  }
  const code = sign && `U+${sign.codePointAt(0).toString(16).toUpperCase().padStart(4, '0')}`;
  const named = sign === null ? `byte ${byte}` : /^[\p{L}\p{M}\p{N}\p{P}\p{S}]$/u.test(sign) ? `\`${sign}\` (${code})` : code;
  const other = PLAIN[sign];
  const what = other === undefined ? '' : `: write ${other === ' ' ? 'a blank' : `\`${other}\``}`;
  return { column, said: `${named} is no ASCII, and may not stand in a comment either${what}` };
}

const ADVICE = {
  1: () => ({ column: null, said: `the text has more than ${limits.text} bytes: leave out comments and blanks` }),
  2: notAscii, 4: misplaced,
  5: (lines, number) => ({
    column: wordColumn(lines[number - 1], 1), said: `a block has 1 to ${limits.block} bytes: few cells are enough, put them side by side`,
  }),
  6: () => ({ column: null, said: `a test has ${limits.agents} agents at most: let one agent do what two do, one after the other` }),
  7: duplicateAgent, 8: literalRange, 9: outOfBlock, 10: unknownName, 11: tooDeep, 12: missingPart,
};

module.exports = { ADVICE, asciiOf, braceAlone, instead };
