'use strict';
// The answer as lines.

const PERHAPS = 'the queue of Atomics.wait is followed in interleavings alone: what is marked (perhaps) may be impossible';
const HOW = { waits: 'wait for ever', spins: 'go round for ever', listens: 'wait for a message for ever' };

const count = (number, one, more) => (number === 1 ? `one ${one}` : `${number} ${more}`);

// Why what synchronizes with something comes after it, where it doesn't read.
const SYNCHRONIZED = { 'is woken': 'it is woken by that', 'takes the message': 'it takes what that sends' };

// What prints steps and reasons: `place` gives where a line is, `code` what of a step's code is shown; lines of the file `main` go by their
// numbers.
class Printer {
  constructor({ main, place, code }) {
    Object.assign(this, { main, place, code });
  }

  at({ file, line }) {
    return file === null ? '' : this.place(file, line);
  }

  near({ file, line }) {
    return file === null ? '' : file === this.main ? `line ${line}` : this.place(file, line);
  }

  source(from) {
    return from.start ? 'the start' : [from.agent, this.near(from)].filter(Boolean).join(', ');
  }

  // Where what is read comes from.
  from(step, word = 'from') {
    const words = (step.from ?? []).map((each) => {
      const [first, last] = each.bytes ?? [];
      const bytes = each.bytes === null ? '' : first === last ? `byte ${first} ` : `bytes ${first} to ${last} `;
      return `${bytes}${word} ${this.source(each)}`;
    });
    return words.length > 1 ? `: ${words.join(', ')}` : words.map((each) => ` ${each}`).join('');
  }

  does(step) {
    const read = `reads ${step.reads}${this.from(step)}${step.from?.length > 1 ? ';' : ','}`;
    switch (step.does) {
      case 'writes': return `writes ${step.writes}`;
      case 'reads': return read.slice(0, -1);
      case 'reads and writes': return `${read} writes ${step.writes}`;
      case 'reads and leaves': return `${read} writes nothing`;
      case 'is woken': return `is woken${this.from(step, 'by')}`;
      case 'takes the message': case 'sees the end': return `${step.does}${this.from(step, 'of')}`;
      default: return step.does;
    }
  }

  steps(steps) {
    const rows = steps.map((step) => [step.agent, this.at(step), this.code(step), this.does(step)]);
    const widths = [0, 1, 2].map((column) => Math.max(0, ...rows.map((row) => row[column].length)));
    return rows.map((row) => `  ${row.map((word, column) => (column < 3 ? word.padEnd(widths[column]) : word)).join('  ')}`);
  }

  // An event in a reason.
  event({ start, agent, file, line, which }) {
    if (start) return 'the start';
    return [agent, this.near({ file, line }), which ? `(access ${which})` : ''].filter(Boolean).join(' ');
  }

  because({ because, middle, source, read, after }) {
    if (because === 'agent-order') return 'its own order';
    if (because === 'synchronizes-with') return `${SYNCHRONIZED[after.does] ?? 'it reads what that writes'} (synchronizes-with)`;
    if (because === 'made-before') return 'the start is first';
    return `${this.event(middle)} may not stand between ${this.event(source)} and its reader ${this.event(read)}`;
  }

  reason(line) {
    if (line.itself) return `so ${this.event(line.before)} before itself`;
    if (line.torn) {
      const sources = line.torn.map((each) => this.event(each)).join(' and of ');
      return `${this.event(line.read)} reads bytes of ${sources}, and none of the three may be torn`;
    }
    if (line.none) return 'each order of these breaks a rule; no two of them alone show it';
    if (line.source && !line.because) return line.hidden === null
      ? `${this.event(line.read)} can't read from ${this.event(line.source)}, which comes after it`
      : `${this.event(line.read)} can't read from ${this.event(line.source)}: ${this.event(line.hidden)} writes over that before`;
    return `${this.event(line.before)} before ${this.event(line.after)}: ${this.because(line)}`;
  }
}

function outcomeLine({ text, holds, isPerhaps }) {
  return `outcome  ${text || '(nothing is returned or printed)'}${holds ? '' : '   FAILS'}${isPerhaps ? '   (perhaps)' : ''}`;
}

// Of several the first has its steps, or with `isAll` each.
function raceLines(races, isAll, printer) {
  if (races.is !== 'yes') return [`data race ${races.is}`];
  return races.pairs.flatMap(({ pair, steps }, place) => [
    `data race yes: ${pair.map((each) => `${each.agent} ${printer.at(each)}`).join(' and ')}`,
    ...(isAll || place === 0 ? printer.steps(steps) : [])]);
}

function hangLines(hangs, isAll, printer) {
  return hangs.flatMap(({ ends, steps }, place) => [
    `${ends.map(({ agent, how, ...at }) => `${agent} may ${HOW[how]} at ${printer.at(at)}`).join(', and ')}${steps ? '' : ' (perhaps)'}`,
    ...(steps && (isAll || place === 0) ? printer.steps(steps) : [])]);
}

// What forbids these ways, by their counts.
function countsOf({ clauses, impossible, unwoken }) {
  return [...clauses.map(({ clause, count: times }) => `${clause} forbids ${times}`),
    ...(impossible ? [`${impossible} read what is not written`] : []), ...(unwoken ? [`${unwoken} are woken by nobody`] : [])].join(', ');
}

function firstLines({ clause, section, cases, whole, steps, lines }, printer) {
  const which = cases > 1 ? `, the first of ${whole ? '' : 'more than '}${cases} cases` : '';
  return [`${clause} (${section})${which}`, ...printer.steps(steps), ...lines.map((line) => `  ${printer.reason(line)}`)];
}

// What would be if so many reads had strange values.
function strangeLine({ reads, ways, isWhole, ...found }) {
  const values = reads === 1 ? 'one read had a value that it can\'t have' : `${reads} reads had values that they can't have`;
  if (ways === 0) return isWhole ? `nor would one if ${values}` : `nor would one that was followed if ${values}; not all were followed`;
  return `if ${values}, ${count(ways, 'way', 'ways')} ${isWhole ? '' : 'and more '}would: ${countsOf(found)}`;
}

// Why there is no such outcome.
function reasonLines(head, verb, { ways, isWhole, isAll, first, strange, ...found }, printer) {
  const values = isAll ? ', whatever they read of what is written there' : ' with the values that they can read';
  const told = ways === 0 ? `no way of the agents would ${verb}${values}`
    : `${count(ways, 'way', 'ways')} of the agents ${isWhole ? '' : 'and more '}would ${verb}: ${countsOf(found)}`;
  const shown = first ?? strange?.first;
  return [`${head}: ${told}`, ...(strange ? [strangeLine(strange)] : []), ...(shown ? firstLines(shown, printer) : [])];
}

function namedLines({ outcomes, reasons }, printer) {
  if (outcomes.length === 0) return reasonLines('no such outcome', 'come to it', reasons, printer);
  return outcomes.flatMap((outcome) => [outcomeLine(outcome), ...(outcome.example ? printer.steps(outcome.example.steps) : [])]);
}

// The three lines that a report of jslit ends with; where nothing is asked, nothing fails.
const briefOf = ({ outcomes, verdict, races }) =>
  [`outcomes ${outcomes.length}`, `verdict ${verdict ?? 'always'}`, `data race ${races.is === 'none found' ? 'unknown' : races.is}`];

// All lines of an answer.
function linesOf({ outcomes, verdict, examples, races, hangs, why, named, notes, texts, isAll, isInTurn }, printer) {
  if (named) return namedLines(named, printer);
  const lines = outcomes.flatMap((outcome, place) =>
    [outcomeLine(outcome), ...(examples[place] ? printer.steps(examples[place].steps) : [])]);
  lines.push(`outcomes ${outcomes.length}`);
  const failing = outcomes.filter(({ holds }) => !holds).length;
  if (verdict !== null) lines.push(`check ${verdict}${verdict === 'always' ? '' : `, fails in ${failing} of ${outcomes.length}`}`);
  if (why) lines.push(...reasonLines('why', 'fail it', why, printer));
  lines.push(...raceLines(races, isAll, printer), ...hangLines(hangs, isAll, printer));
  if (outcomes.length === 0) lines.push('note: no execution ends: each has a loop that waits for what no agent does');
  for (const note of notes) lines.push(`note: ${note}`);
  if (outcomes.some(({ isPerhaps }) => isPerhaps)) lines.push(`note: ${PERHAPS}`);
  const [of, them] = texts.length === 1 ? ['one text', 'it'] : [`${texts.length} texts`, 'them'];
  const proved = isInTurn ? '' : `proved: the outcomes of ${of} (--text prints ${them}); `;
  const what = isInTurn ? 'this program\'s outcomes' : 'this program';
  lines.push(`${proved}tested, not proved: that these are ${what}. Executions that end are listed, no others.`);
  return lines;
}

// Whether each outcome of a second program is one of the first: {lines, isAllowed} of two answers, of which the second has its examples.
function compared(before, after, printer) {
  const missing = (some, others) => some.names.filter((name) => !others.names.includes(name));
  const alone = [['before', missing(before, after)], ['after', missing(after, before)]].filter(([, names]) => names.length);
  if (alone.length) {
    const said = alone.map(([which, names]) => `${names.join(', ')} is there ${which} alone`);
    return { isAllowed: false, lines: [`the agents differ: ${said.join('; ')}`] };
  }
  const known = new Set(before.outcomes.map(({ text }) => text));
  const added = after.outcomes.map((outcome, place) => ({ outcome, example: after.examples[place] }))
    .filter(({ outcome }) => !known.has(outcome.text));
  const counts = `outcomes before ${before.outcomes.length}, after ${after.outcomes.length}, added ${added.length}`;
  return { isAllowed: added.length === 0, lines: [`${added.length ? 'not allowed' : 'allowed'}: ${counts}`,
    ...added.flatMap(({ outcome, example }) =>
      [outcomeLine({ ...outcome, holds: true }), ...(example ? printer.steps(example.steps) : [])])] };
}

module.exports = { Printer, briefOf, compared, hangLines, linesOf, namedLines, raceLines, reasonLines };
