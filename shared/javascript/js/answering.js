'use strict';
// The answer on a program, from its files to plain data, by what the programs say of its texts.

const { answerOf, checkIn } = require('./answer.js');
const { Details, plain } = require('./details.js');
const { Exploring } = require('./explore.js');
const { Limit, Refusal } = require('./refusal.js');
const { placesOf } = require('./sources.js');
const { Program } = require('./trees.js');

const WORDS = {
  13: 'the agents go too many ways together',
  14: 'the agents make too many accesses together',
  15: 'the reads of the agents may take their bytes in more than 2^48 ways',
};

const IN_TURN = 'no text was asked, since it would be past a limit: the outcomes are those of the interleavings, '
  + 'of which none has a data race';

// Asks by `say` of whoever has the programs, and gives the answers to whom they are for.
class Asking {
  constructor(say) {
    Object.assign(this, { say, waiting: new Map(), count: 0 });
  }

  // The report on a text, or with words what jslit-why says of it.
  ask(text, why) {
    const number = this.count += 1;
    this.say({ ask: number, text, why });
    return new Promise((done, failed) => this.waiting.set(number, { done, failed }));
  }

  answered({ ask, refused, ...report }) {
    const { done, failed } = this.waiting.get(ask);
    this.waiting.delete(ask);
    if (refused === undefined) done(report);
    else if (WORDS[refused]) failed(new Limit(`${WORDS[refused]}: take fewer agents, turns or accesses`));
    else failed(new Refusal(`the program refuses a text that was made of this (${refused}): please report it`));
  }
}

class Answering {
  // The files by their names, the main one's name, the harness behind it ({name, from}) or null, and a name for the texts.
  constructor({ files, main, harness, name }, asking) {
    this.program = new Program(new Map(files), main);
    Object.assign(this, { name, asking, asKnown: placesOf(main, harness), asked: checkIn(this.program.files) });
  }

  async explore() {
    const { program, name, asking, asKnown, asked } = this;
    this.made = await new Exploring(program, name, (text) => asking.ask(text)).whole();
    this.answer = answerOf(this.made.trees.list.map((tree) => tree.name), this.made.ended, asked);
    this.details = new Details(this.made, { program, name, answer: this.answer, asKnown, asking, asked });
  }

  // All that is wanted: {examples (whether of each outcome), why, outcome (words, or null)}.
  async whole(wanted) {
    if (wanted.why && this.asked === null) throw new Refusal('--why needs a line `// check: ..` that holds always, or --outcome', null, 2);
    await this.explore();
    const { made, answer, details } = this;
    const named = wanted.outcome === null ? null : await details.named(wanted.outcome);
    const notes = [...this.program.notes.keys(), ...(made.isSequential ? [] : made.thin.notes), ...(made.isInTurn ? [IN_TURN] : [])];
    const [examples, races, hangs] = named ? [] : await Promise.all([details.examples(wanted.examples), details.races(), details.hangs()]);
    return { outcomes: answer.outcomes.map(plain), verdict: answer.verdict, named, examples, races, hangs, names: details.names,
      isAll: wanted.examples,
      why: !named && wanted.why && answer.verdict === 'always' ? await details.why() : null,
      isInTurn: made.isInTurn, texts: made.texts.made.map(({ text }) => text).filter(Boolean), notes };
  }
}

module.exports = { Answering, Asking };
