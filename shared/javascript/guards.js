'use strict';
// The accesses of a text, of which some may go through Atomics or not, and sets of them that are enough where they alone do: for the
// verdict that the text has with all of them doing so, for no data race, or for both. Whether a set is enough is asked of the program each
// time: nothing is taken to follow for a larger one.

const { lineOf } = require('./code.js');
const { inOrder } = require('./pool.js');
const { testIn } = require('./programs.js');
const { eventsOf } = require('./text/tests.js');

// By the numbers of their lines, in the order of the text: `free` are accesses that may go through Atomics or not, as loads and stores of
// typed arrays do; `views` are DataView calls, which can't. An exchange does in any case.
class Accesses {
  constructor(data, events) {
    this.lines = data.toString('latin1').split('\n');
    this.free = new Map(events.filter(({ isView, register, writes }) => !isView && (register === null || writes === null))
      .map((event) => [event.line, event]));
    this.views = events.filter(({ isView }) => isView).map(({ line }) => line);
  }

  // Those of the text in `data`, which stands in the file of this name.
  static async of(name, data) {
    const { agents } = await testIn(name, data);
    return new Accesses(data, agents.flatMap(({ statements }) => eventsOf(statements)).sort((one, other) => one.line - other.line));
  }

  // The text where of the free accesses those on these lines, and no others, go through Atomics.
  textWith(atomic) {
    return this.lines.map((line, place) => {
      const event = this.free.get(place + 1);
      return event ? lineOf({ ...event.access, atomic: atomic.includes(place + 1) }) : line;
    }).join('\n');
  }
}

// What is asked of a text with some of its accesses through Atomics; each such text is asked once. `verdict` is that of the text with
// all of them, or null where it isn't asked for, and `race` whether no data race is asked for: where it is not asked for alone, and the
// text with all of them has one, it is `left`.
class Question {
  constructor(program, name, accesses) {
    Object.assign(this, { program, name, accesses, known: new Map(), whole: [...accesses.free.keys()] });
  }

  async begun(asked) {
    this.verdict = asked === 'race' ? null : await this.answer(this.whole, 'verdict');
    this.left = asked === 'both' && await this.answer(this.whole, 'race') === 'yes';
    this.race = asked !== 'verdict' && !this.left;
    return this;
  }

  // The verdict, or whether there is a data race.
  async answer(lines, what) {
    const key = `${what} ${lines}`;
    if (!this.known.has(key)) {
      const report = await this.program.report(this.name, this.accesses.textWith(lines), what === 'verdict' ? ['--quick'] : []);
      this.known.set(key, report.other[what]);
    }
    return this.known.get(key);
  }

  async enough(lines) {
    return (this.verdict === null || await this.answer(lines, 'verdict') === this.verdict)
      && (!this.race || await this.answer(lines, 'race') === 'no');
  }

  // What is asked for, in words.
  wanted() {
    return [this.verdict && `the verdict is ${this.verdict}`, this.race && 'there is no data race'].filter(Boolean).join(' and ');
  }
}

// A set of which none can be given up: from all on, one is given up at a time in the order of the text. Null where all are not enough.
async function givenUp(question) {
  let [kept, before] = [question.whole, null];
  if (!await question.enough(kept)) return null;
  while (kept !== before) {
    before = kept;
    for (const line of before) {
      const fewer = kept.filter((each) => each !== line);
      if (await question.enough(fewer)) kept = fewer;
    }
  }
  return kept;
}

// The sets of so many members, in the order of the text.
function* combinations(members, size) {
  if (size === 0) yield [];
  for (const [place, first] of members.entries()) {
    if (size > 0) for (const rest of combinations(members.slice(place + 1), size - 1)) yield [first, ...rest];
  }
}

// The sets of the least size, size after size; `size` is the one that was begun last.
class Search {
  constructor(question, jobs) {
    Object.assign(this, { question, jobs, size: 0 });
  }

  // All sets of the least size that are enough; an empty list where none is.
  async least() {
    for (this.size = 0; this.size <= this.question.whole.length; this.size += 1) {
      const found = [];
      const work = async (lines) => (await this.question.enough(lines) ? lines : null);
      for await (const lines of inOrder(combinations(this.question.whole, this.size), this.jobs, work)) if (lines) found.push(lines);
      if (found.length) return found;
    }
    return [];
  }
}

module.exports = { Accesses, Question, Search, givenUp };
