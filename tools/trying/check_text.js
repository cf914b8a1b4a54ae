'use strict';
// check_text.js TEXT PROGRAM OUTPUT FILE..: whether jslit-text, TEXT, says of a text what the program takes it for. Of each text it makes
// others, with noise of all kinds. Both have to refuse the same of them with the same words; and where they don't, the program has to
// answer the text as it answers the canonical text of the test that jslit-text tells: with its report, or, where that is long in coming,
// with the outcome of a schedule. The line of each statement has to be one that begins as it. The same noise comes in each run. What
// jslit-text said goes to OUTPUT, a line a text. It ends with a line that says how many texts were tried, or with status 1 and the texts
// of which the two say different things.

const fs = require('fs');
const { spawn } = require('child_process');
const limits = require('../../shared/limits.json');
const { accessesOf, branchesOf, isIf } = require('../../shared/javascript/text/tests.js');

const AT_A_TIME = 8;
const PATIENCE = 20;    // milliseconds for a report
const AT_RANDOM = 4;    // texts with noise at random places, for each file

// Lines that a comment must hide, whatever byte of these stands before them.
const HIDDEN = ['U8[0] = 2', 'r0 = U8[0]', 'check A.r0 == 9', 'agent Z', '}'];
const BYTES = ['\r', '\t', '\v', '\f', '\0', '\b', '\x1b', '\x1c', '\x7f', '\x80', '\x85', '\xa0', '\xff',
  '\xc2\x85', '\xe2\x80\xa8', '\xef\xbb\xbf'];
const PIECES = [...BYTES, '//', '/', '/*', '*/', '\n', '\n\r\n', ' ', '0', '00', '0x1', '1', '4294967296',
  '_', '.', '(', '!', '}', '{', '==', 'x'];

const ofLines = (change) => (text) => text.split('\n').map(change).join('\n');
const replacing = (pattern, instead) => (text) => text.replace(pattern, instead);

// Noise on a whole text; `turn` is another number in each file. Every file has the first three, and a third of the others.
function noises(turn) {
  const hidden = HIDDEN[turn % HIDDEN.length];
  const byte = BYTES[turn % BYTES.length];
  return [
    (text) => text,
    ofLines((line) => `${line} // x\r${hidden}`),
    ofLines((line) => `// x\r${hidden}\n${line}//\r\r//\r${hidden}`),
    ofLines((line) => `${line}\r`),
    ofLines((line) => `\r\t${line.replace(/\/\/[^]*/, '').replace(/ /g, '\t\r ')}\t\n \r`),
    ofLines((line) => line.replace(/\/\/[^]*/, '').replace(/([=!&|[\](){},.]+)/g, '\r$1\t')),
    (text) => text.replace(/\n$/, ''),
    (text) => `\n\r\n${text}\n\n`,
    (text) => text.replace(/\n/g, '\r'),
    ofLines((line) => (line.includes('//') ? line : `${line} // x${byte}${hidden}`)),
    ofLines((line) => `${line}${byte}`),
    (text) => `${byte}${text}`,
    (text) => `${text}${byte}`,
    (text) => `${text}//${' '.repeat(limits.text - text.length - 2)}`,
    (text) => `${text}//${' '.repeat(limits.text - text.length - 1)}`,
    replacing(/\b(test|agent|check|if|load|store|true)\b/g, (word) => word[0].toUpperCase() + word.slice(1)),
    replacing(/\bU(?=8|16|32)/g, 'u'),
    replacing(/\bbytes (\d+)/, (_, number) => `bytes 0${number}`),
    replacing(/([=(,] ?)(\d+)/, (_, before, number) => `${before}0x${Number(number).toString(16)}`),
    replacing(/= (\d+)/g, (_, number) => `= 0${number}`),
    replacing(/\/\/|$/, '/ / '),
  ];
}

// Numbers that look random and are the same in each run.
function sequence(seed) {
  let state = seed;
  return (limit) => {
    state = (Math.imul(state, 1664525) + 1013904223) >>> 0;
    return Math.floor(state / 2 ** 32 * limit);
  };
}

// A piece is put in, or taken out, somewhere; or a line is left out, doubled or moved.
function atRandom(text, draw) {
  const place = draw(text.length + 1);
  const lines = text.split('\n');
  const row = draw(lines.length);
  const kind = draw(6);
  if (kind === 0) return text.slice(0, place) + text.slice(place + 1 + draw(3));
  if (kind === 1) return [...lines.slice(0, row), lines[row], ...lines.slice(row)].join('\n');
  if (kind === 2) return [...lines.slice(0, row), ...lines.slice(row + 1 + draw(2))].join('\n');
  return text.slice(0, place) + PIECES[draw(PIECES.length)] + text.slice(place);
}

const ARGUMENTS = { load: 0, store: 1, exchange: 1, compareExchange: 2 };
const WHOLE = { comparison: 0, not: 0, all: 1, any: 2 };
const kindOf = (condition) => Object.keys(WHOLE).find((key) => condition[key]) || 'comparison';

function shownCondition(condition) {
  const kind = kindOf(condition);
  const inner = (member, within) => (WHOLE[kindOf(member)] > within ? `(${shownCondition(member)})` : shownCondition(member));
  if (kind === 'not') return `!${inner(condition.not, 0)}`;
  if (kind === 'comparison') return `${condition.agent}.r${condition.register} ${condition.equal ? '==' : '!='} ${condition.number}`;
  // A member that is of the same kind has parentheses.
  return condition[kind].map((member) => inner(member, WHOLE[kind] - 1)).join(kind === 'all' ? ' && ' : ' || ');
}

function shownAccess({ kind, atomic, view, bits, place, register, values }) {
  if (values.length !== ARGUMENTS[kind]) throw new Error(`${kind} with ${values.length} numbers`);
  const written = register === null ? '' : `r${register} = `;
  if (atomic) return `${written}Atomics.${kind}(${[view, place, ...values].join(', ')})`;
  if (view !== 'DV') return `${written}${view}[${place}]${kind === 'store' ? ` = ${values[0]}` : ''}`;
  return `${written}DV.${kind === 'load' ? 'get' : 'set'}Uint${bits}(${[place, ...values, ...(bits === 8 ? [] : ['true'])].join(', ')})`;
}

const shownStatements = (statements) => statements.flatMap((statement) => {
  if (!isIf(statement)) return [shownAccess(statement)];
  const { register, equal, number, body, other } = statement;
  return [`if r${register} ${equal ? '==' : '!='} ${number} {`, ...shownStatements(body),
    ...(other.length ? ['} else {', ...shownStatements(other)] : []), '}'];
});

// The canonical text of a test.
function shown({ name, bytes, agents, condition }) {
  return [`test ${name}`, `bytes ${bytes}`, ...agents.flatMap((agent) => [`agent ${agent.name}`, ...shownStatements(agent.statements)]),
    `check ${shownCondition(condition)}`, ''].join('\n');
}

// What the program prints of a text, or null where it doesn't end in time.
function asked(program, words, text, patience) {
  return new Promise((done, failed) => {
    const child = spawn(program, words, { stdio: ['pipe', 'pipe', 'ignore'] });
    const clock = patience && setTimeout(() => child.kill('SIGKILL'), patience);
    const said = [];
    child.on('error', failed);
    child.stdin.on('error', () => {});
    child.stdin.end(text, 'latin1');
    child.stdout.on('data', (piece) => said.push(piece));
    child.on('close', (status, signal) => {
      clearTimeout(clock);
      done(signal ? null : `${Buffer.concat(said).toString('latin1')}status ${status}`);
    });
  });
}

const refusalOf = ({ number, word, line }) => `refused ${number} ${word}${line === null ? '' : ` line ${line}`}\nstatus 1`;

// A statement whose line doesn't begin as it, if there is one.
function misplaced(test, text) {
  const lines = text.split('\n').map((line) => line.split('//')[0].replace(/[\t\r ]/g, ''));
  const begins = (each) => shownStatements([each])[0].replace(/ /g, '');
  const every = test.agents.flatMap(({ statements }) => [...accessesOf(statements), ...branchesOf(statements)]);
  return every.find((each) => lines[each.line - 1] !== begins(each));
}

// What is asked of the program for a test: its report, where that comes soon, and else the outcome of turn after turn.
class Asker {
  constructor(teller, program) {
    Object.assign(this, { teller, program, known: new Map(), told: [] });
  }

  // The words to ask of a test, and the answer on its canonical text.
  canonical(text, agents) {
    if (!this.known.has(text)) this.known.set(text, this.find(text, agents));
    return this.known.get(text);
  }

  async find(text, agents) {
    const report = await asked(this.program, [], text, PATIENCE);
    if (report !== null) return { words: [], answer: report };
    const words = ['--schedule', Array(12).fill(agents.map(({ name }) => name).join()).join()];
    return { words, answer: await asked(this.program, words, text) };
  }

  // What is wrong with a text, or null.
  async fault(text) {
    const line = await asked(this.teller, [], text);
    const { test, fault } = JSON.parse(line.replace(/status [01]$/, ''));
    this.told.push(line.replace(/status [01]$/, ''));
    if (line.endsWith('1') !== (fault !== null)) return 'its status is another';
    if (fault !== null) {
      const said = await asked(this.program, ['--schedule', ''], text);
      return said === refusalOf(fault) ? null : `the program says ${said.slice(0, 200)}, and jslit-text ${refusalOf(fault)}`;
    }
    const wrong = misplaced(test, text);
    if (wrong) return `no such statement stands on line ${wrong.line}: ${JSON.stringify(wrong)}`;
    const { words, answer } = await this.canonical(shown(test), test.agents);
    const said = await asked(this.program, words, text);
    return said === answer ? null : `the program says ${said.slice(0, 200)}, and jslit-text tells\n${shown(test)}`;
  }
}

async function main([teller, program, output, ...files]) {
  const asker = new Asker(teller, program);
  const texts = files.flatMap((file, turn) => {
    const text = fs.readFileSync(file, 'latin1');
    const draw = sequence(turn + 1);
    const whole = noises(turn).filter((_, place) => place < 3 || place % 3 === turn % 3);
    return [...whole.map((noise) => noise(text)), ...Array.from({ length: AT_RANDOM }, () => atRandom(text, draw))];
  });
  const faults = [];
  let next = 0;
  await Promise.all(Array.from({ length: AT_A_TIME }, async () => {
    while (next < texts.length) {
      const text = texts[next];
      next += 1;
      const fault = await asker.fault(text);
      if (fault !== null) faults.push(`${JSON.stringify(text.slice(0, 2000))}: ${fault}`);
    }
  }));
  for (const fault of faults.slice(0, 10)) process.stdout.write(`${fault}\n`);
  fs.writeFileSync(output, asker.told.join(''));
  process.stdout.write(`${texts.length} texts of ${files.length} files, ${faults.length} read in two ways\n`);
  process.exitCode = faults.length === 0 ? 0 : 1;
}

main(process.argv.slice(2));
