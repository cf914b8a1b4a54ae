'use strict';
// A test as JavaScript: the function of an agent, and the condition.

const { accessesOf, isIf, namesOf, registersOf } = require('./text/tests.js');

// Where an element or byte stands: from `base`, the copy's first byte, or `half` and `word`, the same in elements.
const BASES = { U8: 'base', U16: 'half', U32: 'word', DV: 'base' };

// The line of an access, as a litmus text has it, or with another place.
function lineOf({ kind, register, atomic, view, bits, place, values }, where = place) {
  const into = register === null ? '' : `r${register} = `;
  if (atomic) return `${into}Atomics.${kind}(${[view, where, ...values].join(', ')})`;
  if (view !== 'DV') return `${into}${view}[${where}]${kind === 'store' ? ` = ${values[0]}` : ''}`;
  return `${into}DV.${kind === 'load' ? 'get' : 'set'}Uint${bits}(${[where, ...values, ...(bits === 8 ? [] : ['true'])].join(', ')})`;
}

// The lines of statements, each with `indent` before it.
function statementLines(statements, indent) {
  return statements.flatMap((statement) => {
    if (!isIf(statement)) return [`${indent}${lineOf(statement, `${BASES[statement.view]} + ${statement.place}`)};`];
    const { register, equal, number, body, other } = statement;
    const lines = [`${indent}if (r${register} ${equal ? '===' : '!=='} ${number}) {`, ...statementLines(body, `${indent}  `)];
    if (other.length) lines.push(`${indent}} else {`, ...statementLines(other, `${indent}  `));
    return [...lines, `${indent}}`];
  });
}

const namedIn = (statements) => statements.flatMap((statement) => [
  ...(statement.register === null ? [] : [`r${statement.register}`]),
  ...(isIf(statement) ? [...namedIn(statement.body), ...namedIn(statement.other)] : [])]);

// The function that carries out one copy of an agent's statements, and puts its registers where `place` says.
function agentCode(test, agent) {
  const { statements } = test.agents[agent];
  const views = new Set(accessesOf(statements).map(({ view }) => view));
  const registers = [...new Set(namedIn(statements))].sort();
  const results = registersOf(test).flatMap(([owner, register], place) => (
    owner === agent ? [`  out[place + ${place}] = r${register};`] : []));
  return ['function copy(U8, U16, U32, DV, base, out, place) {',
    ...(views.has('U16') ? ['  const half = base >> 1;'] : []),
    ...(views.has('U32') ? ['  const word = base >> 2;'] : []),
    ...(registers.length ? [`  let ${registers.map((register) => `${register} = 0`).join(', ')};`] : []),
    ...statementLines(statements, '  '), ...results, '}'].join('\n');
}

// The condition as an expression on `seen`, the list of an outcome's values.
function conditionCode(test) {
  const names = namesOf(test);
  const code = (condition) => {
    if (condition.all) return `(${condition.all.map(code).join(' && ')})`;
    if (condition.any) return `(${condition.any.map(code).join(' || ')})`;
    if (condition.not) return `!${code(condition.not)}`;
    const { agent, register, equal, number } = condition;
    return `(seen[${names.indexOf(`${agent}.r${register}`)}] ${equal ? '===' : '!=='} ${number})`;
  };
  return code(test.condition);
}

// The size of the widest element that a typed array of the test has: copies begin at its multiples.
const alignmentOf = (test) => Math.max(1, ...test.agents.flatMap(({ statements }) => (
  accessesOf(statements).filter(({ view }) => view !== 'DV').map(({ bits }) => bits / 8))));

// The bytes that an access is of, from the first one.
const bytesOf = ({ view, bits, place }) => (view === 'DV' ? [place, place + bits / 8] : [place * bits / 8, (place + 1) * bits / 8]);

// Whether the order of bytes tells: an element of several bytes of a typed array is accessed otherwise too. The model's order is
// little-endian, which a DataView has everywhere, as it is written here.
function mixesSizes(test) {
  const accesses = test.agents.flatMap(({ statements }) => accessesOf(statements));
  const meet = ([from, to], [first, last]) => from < last && first < to;
  return accesses.some((one) => one.view !== 'DV' && one.bits > 8 && accesses.some((other) => (
    (other.view === 'DV' || other.bits !== one.bits) && meet(bytesOf(one), bytesOf(other)))));
}

module.exports = { agentCode, alignmentOf, conditionCode, lineOf, mixesSizes };
