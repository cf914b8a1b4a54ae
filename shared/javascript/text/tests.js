'use strict';
// A test as the program tells it: docs/schemas/text.json. Its accesses as events, and its ways through an agent's statements.

const isIf = (statement) => statement.kind === 'if';

const accessesOf = (statements) => statements.flatMap((each) => (
  isIf(each) ? [...accessesOf(each.body), ...accessesOf(each.other)] : [each]));
const branchesOf = (statements) => statements.flatMap((each) => (
  isIf(each) ? [each, ...branchesOf(each.body), ...branchesOf(each.other)] : []));

// Each register that an agent writes, as [agent's number, register]: agents in order, registers by number.
const registersOf = (test) => test.agents.flatMap(({ registers }, agent) => registers.map((register) => [agent, register]));

const namesOf = (test) => registersOf(test).map(([agent, register]) => `${test.agents[agent].name}.r${register}`);

// Whether an access may write or not, by what it reads.
const decides = ({ values }) => values.length === 2;

// An access as an event: `writes` is null where it writes nothing, `register` where it reads nothing. Of a compareExchange that which
// succeeds.
function eventOf(access) {
  const { line, register, atomic, view, bits, place, values } = access;
  const size = bits / 8;
  const first = view === 'DV' ? place : place * size;
  return {
    line, register, atomic, first, size, access, bytes: Array.from({ length: size }, (_, byte) => first + byte),
    writes: values.length ? values[values.length - 1] : null, expected: decides(access) ? values[0] : null, isView: view === 'DV',
  };
}

// The values that an event may leave in a byte.
const storedBy = ({ first, writes }, byte) => (writes === null ? [] : [Math.floor(writes / 256 ** (byte - first)) % 256]);

const eventsOf = (statements) => accessesOf(statements).map(eventOf);

// The events that make the block.
const inits = (size) => Array.from({ length: size }, (_, byte) => ({
  line: null, register: null, atomic: false, first: byte, size: 1, bytes: [byte], writes: 0, expected: null, isView: false,
}));

// The ways through statements, as lists of steps: {event} of an access, {branch, holds} of an if.
function walks(statements) {
  if (statements.length === 0) return [[]];
  const [head, ...rest] = statements;
  const after = walks(rest);
  const waysOf = () => {
    if (isIf(head)) {
      return [true, false].flatMap((holds) => walks(holds ? head.body : head.other).map((walk) => [{ branch: head, holds }, ...walk]));
    }
    const event = eventOf(head);
    return !decides(head) ? [[{ event }]] : [[{ event }], [{ event: { ...event, writes: null } }]];
  };
  return waysOf().flatMap((way) => after.map((walk) => [...way, ...walk]));
}

// Whether a condition holds, as `holds` says it of each of its comparisons.
function meets(condition, holds) {
  if (condition.all) return condition.all.every((each) => meets(each, holds));
  if (condition.any) return condition.any.some((each) => meets(each, holds));
  return condition.not ? !meets(condition.not, holds) : holds(condition);
}

// Gives whether an outcome with these values, of the registers in their order, meets the condition of a test.
function meetsOf(test) {
  const names = namesOf(test);
  return (values) => meets(test.condition, ({ agent, register, equal, number }) => (
    (values[names.indexOf(`${agent}.r${register}`)] === number) === equal));
}

// The comparisons of a condition.
const comparisonsOf = (condition) => (condition.not ? comparisonsOf(condition.not)
  : (condition.all ?? condition.any)?.flatMap(comparisonsOf) ?? [condition]);

module.exports = {
  accessesOf, branchesOf, comparisonsOf, decides, eventsOf, inits, isIf, meets, meetsOf, namesOf, registersOf, storedBy, walks,
};
