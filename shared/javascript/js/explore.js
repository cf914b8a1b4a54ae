'use strict';
// Asks the program until no outcome of the texts shows a value that the trees don't know. Then no execution of the agents was left out,
// but for values out of thin air, which `thin.js` looks for.

const { Layout } = require('./layout.js');
const { Limit, Refusal } = require('./refusal.js');
const { Texts, seeAccesses, walk } = require('./texts.js');
const { keyOf } = require('./run.js');
const { Interleavings } = require('./interleavings.js');
const { each, plant } = require('./trees.js');
const { seedsOf } = require('./thin.js');

const MOST_ROUNDS = 200;
const MOST_WAYS = 200000;
const MOST_RESTARTS = 20;
const MOST_SOWN = 3;
const MOST_ALONE = 20000;   // states of interleavings that stand for texts

// The values that each range has in the trees.
function valuesIn(trees) {
  const values = new Map();
  const see = (event, value) => values.set(keyOf(event), (values.get(keyOf(event)) ?? new Set([0])).add(value));
  for (const { root } of trees.list) {
    each(root, ({ event, kids }) => {
      if (event.value !== undefined) see(event, event.value);
      kids?.forEach((_, value) => see(event, value));
    });
  }
  return values;
}

// How many ways a tree will have in a text, at about: a read of which nothing is known yet may have all values of its range.
function waysIn(node, values) {
  let at = node;
  while (at && !at.leaf && !at.kids) at = at.next;
  if (!at?.kids) return 1;
  if (at.kids.size === 0) return values.get(keyOf(at.event))?.size ?? 1;
  return [...at.kids.values()].reduce((sum, kid) => sum + waysIn(kid, values), 0);
}

// A report has a line for each way that the agents may go together: so many are too many.
function seeWays(trees) {
  const values = valuesIn(trees);
  const counts = trees.list.map(({ root }) => waysIn(root, values));
  if (counts.reduce((all, ways) => all * ways, 1) <= MOST_WAYS) return;
  const { name, root } = trees.list[counts.indexOf(Math.max(...counts))];
  let read = root;
  while (read.kids === undefined) read = read.next;
  throw new Limit(`the agents read their values in more than ${MOST_WAYS.toLocaleString('en')} ways together, `
    + `${name} in ${Math.max(...counts)} from here on: take fewer agents, turns or accesses`, read.event.at);
}

// Whether the agents on these ways were woken no more often than they were notified.
function areNotified(ways) {
  const woken = new Map();
  const notified = new Map();
  for (const way of ways) {
    way.leaf.wakes.forEach((times, cell) => woken.set(cell, (woken.get(cell) ?? 0) + times));
    way.notified.forEach((times, cell) => notified.set(cell, (notified.get(cell) ?? 0) + times));
  }
  return [...woken].every(([cell, times]) => times <= (notified.get(cell) ?? 0));
}

// What the interleavings say of outcomes behind a wake-up: those that one has are certain; where no interleaving has a data race the
// others are impossible. {ended, isSequential (whether the outcomes are those of the interleavings)}.
function known({ ended }, thin, space, isSown) {
  const isSequential = space.isRaceFree && thin.isNone && !isSown;
  const keyOf = (leaves) => leaves.map((leaf) => space.leaves.get(leaf)).join();
  const kept = [];
  for (const each of ended) {
    const isCertain = space.ended.has(keyOf(each.leaves));
    const isPerhaps = !isCertain && each.leaves.some((leaf) => leaf.isPerhaps);
    if (!isPerhaps || !isSequential) kept.push({ ...each, isPerhaps, isInterleaved: isCertain });
  }
  return { ended: kept, isSequential };
}

class Exploring {
  // `ask` gives the report of a text: {registers, outcomes (lists of values), race}.
  constructor(program, name, ask) {
    Object.assign(this, { program, name, ask, answers: new Map(), rounds: 0 });
  }

  async report(text) {
    if (!this.answers.has(text)) this.answers.set(text, await this.ask(text));
    return this.answers.get(text);
  }

  // The texts of the trees as they are: what is past a limit is refused.
  texts(trees) {
    const layout = new Layout(trees);
    seeAccesses(trees, layout);
    seeWays(trees);
    return { layout, texts: new Texts(this.name, trees, layout) };
  }

  // The outcomes of one round, each as the leaves of its ways, and the values that aren't known yet, for each agent.
  async round(trees) {
    const { layout, texts } = this.texts(trees);
    const made = { layout, texts, ended: [], unknown: trees.list.map(() => new Map()), race: false };
    const reports = await Promise.all(
      texts.made.map(({ text }) => (text === '' ? { registers: [], outcomes: [[]], race: false } : this.report(text))));
    reports.forEach(({ registers, outcomes, race }, place) => {
      made.race ||= race;
      for (const values of outcomes) this.take(made, trees, texts.made[place].part, registers, values);
    });
    return made;
  }

  take(made, trees, part, registers, values) {
    const held = new Map(trees.list.map(({ name }) => [name, []]));
    registers.forEach((register, place) => {
      const [name, number] = register.split('.r');
      held.get(name)[Number(number)] = values[place];
    });
    const ways = trees.list.map((tree) => walk(tree, made.layout, made.texts.wakes, part, held.get(tree.name)));
    if (ways.some((way) => way === null)) return;
    ways.forEach((way, place) => way.unknown && made.unknown[place].set(way.unknown.join(), way.unknown));
    if (ways.every(({ leaf }) => leaf && leaf.end !== 'stutter') && areNotified(ways)) {
      made.ended.push({ leaves: ways.map(({ leaf }) => leaf), values: ways.map((way) => way.values) });
    }
  }

  // Rounds until nothing is unknown.
  async close(trees) {
    for (;;) {
      this.rounds += 1;
      if (this.rounds > MOST_ROUNDS) throw new Limit('the values that the agents read come to no end: let their loops make two turns');
      const made = await this.round(trees);
      if (made.unknown.every((values) => values.size === 0)) return made;
      made.unknown.forEach((values, place) => values.forEach((each) => trees.list[place].grow(each)));
    }
  }

  // The trees once they are closed, and what the last round had.
  async whole() {
    const mixed = new Set();
    for (let restart = 0; restart < MOST_RESTARTS; restart += 1) {
      const trees = plant(this.program, mixed);
      const made = await this.byTexts(trees).catch((error) => this.inTurn(trees, error));
      const broken = trees.setting.broken().filter((key) => !mixed.has(key));
      if (broken.length === 0) return { ...made, trees };
      broken.forEach((key) => mixed.add(key));
    }
    throw new Refusal('the agents access one word in too many ways');
  }

  async byTexts(trees) {
    const space = new Interleavings(trees, () => seeAccesses(trees, new Layout(trees))).go();
    let made = await this.close(trees);
    let thin = seedsOf(this.program, trees, space);
    const isSown = thin.seeds.length > 0;
    for (let times = 0; thin.seeds.length && times < MOST_SOWN; times += 1) {
      thin.seeds.forEach(({ agent, values }) => trees.list[agent].grow(values));
      made = await this.close(trees);
      thin = seedsOf(this.program, trees, space);
    }
    return { ...made, thin, space, isSown, isInTurn: false, ...known(made, thin, space, isSown) };
  }

  // Where texts are refused, the interleavings alone: if none has a data race, and there are no values out of thin air, these are all.
  inTurn(trees, refusal) {
    if (!(refusal instanceof Limit)) throw refusal;
    try {
      const space = new Interleavings(trees).go({ most: MOST_ALONE, isRaceFree: true });
      const thin = space.isRaceFree ? seedsOf(this.program, trees, space) : null;
      if (!thin?.isNone) throw refusal;
      return { texts: { made: [] }, race: false, ended: space.outcomes(), thin, space, isSown: false, isInTurn: true, isSequential: true };
    } catch (error) {
      throw error instanceof Refusal ? refusal : error;
    }
  }
}

module.exports = { Exploring, areNotified };
