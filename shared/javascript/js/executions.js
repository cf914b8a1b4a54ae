'use strict';
// What jslit-why says of one way of each agent, in the user's terms: an execution step by step, or what refuses it.

const { traced } = require('./interleavings.js');
const { joined, premisesOf } = require('../executions/reasons.js');
const { Limit } = require('./refusal.js');
const { Straight, wayOf } = require('./straight.js');

// A step of an execution in the user's terms is plain data: {agent, file, line, code, does, reads, from, writes}; `from` has what each byte
// that is read comes from: {bytes (null for all), agent, file, line}, or {bytes, start: true} for what is there at first.

// The bytes of an access as its type shows them.
function valueText({ type, isBig, size, first }, bits) {
  const Type = globalThis[type];
  if (!Type || Type.BYTES_PER_ELEMENT !== size) {
    return Type ? `0x${bits.toString(16).padStart(8, '0')} in bytes ${first % 8} to ${first % 8 + 3}` : String(bits);
  }
  const bytes = Array.from({ length: size }, (_, place) => Math.floor(bits / 256 ** place) % 256);
  const [value] = new Type(Uint8Array.from(isBig ? bytes.reverse() : bytes).buffer);
  return Object.is(value, -0) ? '-0' : String(value);
}

function doesOf({ event, written, got, isExit }) {
  if (event.op === 'wake') return 'is woken';
  if (event.op === 'receive') return isExit ? 'sees the end' : 'takes the message';
  if (event.notifies !== undefined) return 'notifies';
  if (event.block === 'mail') return event.isExit ? 'ends' : 'sends a message';
  if (got === undefined) return 'writes';
  return written === null ? (event.op === 'read' ? 'reads' : 'reads and leaves') : 'reads and writes';
}

const placeOf = (at) => ({ file: at?.file ?? null, line: at?.line ?? null });

// A step as data; `names` are the agents', `excerpt` gives the code of a place.
function dataOf({ step, sources }, names, excerpt) {
  const { agent, event, got, written } = step;
  const does = doesOf(step);
  const made = { agent: names[agent], ...placeOf(event.at), code: event.at ? excerpt(event.at) : null, does };
  if (sources.length) {
    made.from = sources.map(({ from, to, step: source }) => ({ bytes: sources.length === 1 ? null : [from, to],
      ...(source ? { agent: names[source.agent], ...placeOf(source.event.at) } : { start: true }) }));
  }
  if (does.startsWith('reads')) made.reads = valueText(event, got);
  if (/writes$/.test(does)) made.writes = valueText(event, written);
  return made;
}

class Executions {
  // `why` gives what jslit-why says of a text with these words; `asKnown` where something stands, as the user knows it.
  constructor(name, program, trees, asKnown, why) {
    Object.assign(this, { name, program, trees, asKnown, why, names: trees.list.map((tree) => tree.name) });
  }

  data(steps) {
    const list = steps.map(({ step }) => step);
    return steps.map(({ step, sources }) => {
      const isExit = step.event.op === 'receive' && this.program.payloads[step.got]?.type === 'exit';
      const made = this.placed(dataOf({ step: { ...step, isExit }, sources }, this.names, (at) => this.program.excerpt(at)));
      made.from?.forEach((from, place) => {
        const source = list.indexOf(sources[place].step);
        if (source >= 0) from.step = source;
      });
      return made;
    });
  }

  // The same with the user's own places.
  placed(step) {
    const own = ({ file, line, ...rest }) => (file === undefined ? rest : { ...rest, ...this.asKnown({ file, line }) });
    return { ...own(step), ...(step.from ? { from: step.from.map(own) } : {}) };
  }

  // A way of each agent as a text, or null where it has more bytes than a text may have.
  within(ways) {
    try {
      return new Straight(this.name, this.trees, ways);
    } catch (error) {
      if (!(error instanceof Limit)) throw error;
      return null;
    }
  }

  // What there is on ways that these values lead, one list for each agent: {steps, text, words}, {refused}, {impossible} where a value
  // is one that none of these ways writes, or {isPast} where their text is past a limit.
  async ofWays(values) {
    const straight = this.within(values.map((each, agent) => wayOf(this.trees.list[agent], agent, each).steps));
    const told = straight && await this.why(straight.text, []);
    if (!told || told.refused) return { isPast: true };
    if (told.execution) {
      const races = told.execution.races.map((names) => names.map((each) => straight.stepOf(each)));
      return { steps: this.data(straight.ordered(told.execution)), text: straight.text, choice: told.choice,
        races: races.filter((steps) => steps.every(Boolean)).map((steps) => this.data(steps.map((step) => ({ step, sources: [] })))) };
    }
    if (told.clauses?.length) return { refused: this.refused(straight, told.clauses[0]) };
    return { impossible: true };
  }

  // The interleaving that these moves make, in its own order, where jslit-why has it as a valid execution; and the last two steps as a
  // data race, if these are to be one.
  async ofMoves(moves, areRacing = false) {
    const { ways, order } = traced(this.trees, moves);
    const racing = areRacing ? order.slice(-2) : null;
    const straight = new Straight(this.name, this.trees, ways, racing ? racing.map(({ event }) => event) : []);
    const told = await this.why(straight.text, ['--from', straight.from(order)]);
    if (!told.execution?.order || !this.reads(straight, told.execution)) return null;
    const pair = racing?.map((step) => straight.nameOf(step));
    if (pair && !told.execution.races.some((race) => pair.every((name) => race.includes(name)))) return null;
    const { from } = told.execution;
    const names = order.filter((step) => straight.has(step)).map((step) => straight.nameOf(step));
    const steps = this.data(straight.ordered({ from, order: names }));
    return { steps, text: straight.text, choice: told.choice,
      ...(racing ? { pair: this.data(racing.map((step) => ({ step, sources: [] }))) } : {}) };
  }

  // Whether the reads have the values that the code was run with.
  reads(straight, { events }) {
    return events.every(({ name, reads }) => {
      const step = straight.stepOf(name);
      return !step || reads === null || reads === straight.layout.number(step.event, step.got);
    });
  }

  // The first attempt that a clause refuses: {clause, section, steps, lines}.
  refused(straight, { clause, section, cases, whole, execution }) {
    const given = new Set(execution.from.map(({ read }) => read));
    const order = execution.events.map(({ name }) => name);
    const steps = straight.ordered({ from: execution.from, order })
      .filter(({ step }) => step.written !== null || given.has(straight.nameOf(step)));
    const told = new Reason((name) => this.called(straight, name)).of(execution.refusal);
    return { clause, section, cases, whole, steps: this.data(steps), lines: told };
  }

  // An event as it is called in a reason: {agent, file, line, which (of several accesses on one line), does (where it is no access)}, or
  // {start}.
  called(straight, name) {
    const step = straight.stepOf(name);
    if (step === null) return name.startsWith('init') ? { start: true } : { agent: name.split('.')[0], file: null, line: null };
    const { file, line } = placeOf(step.event.at);
    const same = straight.events[step.agent].filter(({ event: { at } }) => at?.file === file && at?.line === line);
    const does = { wake: 'is woken', receive: 'takes the message' }[step.event.op];
    const which = same.length > 1 ? { which: same.indexOf(step) + 1 } : {};
    return this.placed({ agent: this.names[step.agent], file, line, ...which, ...(does ? { does } : {}) });
  }
}

// A refusal as lines of data: {before, after, because}, {read, source, then}, {torn}, or {before, itself}.
class Reason {
  constructor(named) {
    this.named = named;
  }

  of(refusal) {
    switch (refusal.clause) {
      case 'happens-before': return [...this.chain(refusal.chains[0]), this.itself(refusal.event)];
      case 'coherent-reads': return [{ read: this.named(refusal.read), source: this.named(refusal.source),
        hidden: refusal.hidden_by && this.named(refusal.hidden_by) }, ...refusal.chains.flatMap((chain) => this.chain(chain))];
      case 'tear-free-reads': return [{ read: this.named(refusal.read), torn: refusal.sources.map(this.named) }];
      case 'memory-order': return refusal.derivation === null ? [{ none: true }] : this.cycle(refusal.derivation);
      default: return [{ none: true }];
    }
  }

  chain(chain) {
    return chain.map(({ before, after, step }) => ({ before: this.named(before), after: this.named(after), because: step }));
  }

  itself(event) {
    return { before: this.named(event), itself: true };
  }

  step(line) {
    if (line.reason === 'happens-before') return this.chain(line.chain);
    const [middle, source, read] = line.reason === 'after-read'
      ? [line.after, line.source, line.before] : [line.before, line.after, line.read];
    return [{ before: this.named(line.before), after: this.named(line.after), because: 'between',
      middle: this.named(middle), source: this.named(source), read: this.named(read) }];
  }

  // First the steps to the lines that forced lines cite, then the steps of the cycle, from its first event on.
  cycle(lines) {
    const places = joined(lines, lines.length - 1);
    const premises = [...new Set(premisesOf(lines))].flatMap((place) => joined(lines, place));
    return [...[...premises, ...places].flatMap((place) => this.step(lines[place])), this.itself(lines[places[0]].before)];
  }
}

module.exports = { Executions };
