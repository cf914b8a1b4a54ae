'use strict';
// Beside the outcomes: an example of each, the data races and what nothing ends with theirs, and why an outcome can't be.

const { vm } = require('./host.js');
const { Check, dataIn, told } = require('./answer.js');
const { Executions } = require('./executions.js');
const { Refusal } = require('./refusal.js');
const { reasonsOf } = require('./reasons.js');
const { Strange } = require('./strange.js');
const { dataOf, shown } = require('./values.js');

const PATIENCE = 1000;   // milliseconds for the words of an outcome

class Details {
  constructor(made, { program, name, answer, asKnown, asking, asked }) {
    Object.assign(this, { made, program, answer, asked, asKnown, trees: made.trees });
    this.executions = new Executions(name, program, made.trees, asKnown, async (text, words) => (await asking.ask(text, words)).why);
  }

  get names() {
    return this.executions.names;
  }

  // The steps of an example of an outcome.
  async example(outcome) {
    const { steps, text, choice, races } = await this.executions.ofWays(outcome.values);
    return steps ? { steps, text, choice, races } : null;
  }

  // Examples: of each outcome, or of the first that fails the check.
  async examples(isAll) {
    const { outcomes } = this.answer;
    const first = outcomes.find(({ holds }) => !holds);
    return Promise.all(outcomes.map((outcome) => (isAll || outcome === first ? this.example(outcome) : null)));
  }

  // {is: yes, perhaps, no or none found, pairs: [{pair, steps}]}. What no interleaving has may be in an outcome that none has.
  async races() {
    const { space, race, thin } = this.made;
    const pairs = await Promise.all([...space.races.values()].map(({ moves }) => this.executions.ofMoves(moves, true)));
    const sure = pairs.filter(Boolean);
    if (sure.length) return { is: 'yes', pairs: sure };
    if (space.races.size) return { is: 'perhaps', pairs: [] };
    const found = race && !(space.isWhole && thin.isNone && !this.made.isSown) ? await this.relaxed() : null;
    if (found) return { is: 'yes', pairs: [found] };
    if (space.isWhole && thin.isNone && !this.made.isSown) return { is: 'no', pairs: [] };
    return { is: race ? 'perhaps' : 'none found', pairs: [] };
  }

  // A data race in the example of an outcome that no interleaving has.
  async relaxed() {
    for (const { values } of this.made.ended.filter(({ isInterleaved, isPerhaps }) => !isInterleaved && !isPerhaps)) {
      const { steps, races, text, choice } = await this.executions.ofWays(values);
      if (races?.length) return { pair: races[0], steps, text, choice };
    }
    return null;
  }

  // What nothing ends: {ends: [{agent, file, line, how}], steps}.
  async hangs() {
    return Promise.all([...this.made.space.hangs.values()].map(async ({ ends, state }) => {
      const found = await this.executions.ofMoves(state.moves());
      const told = ends.map(({ agent, at, how }) => ({ agent: this.names[agent], ...this.asKnown(at), how }));
      return { ends: told, ...(found ?? { steps: null }) };
    }));
  }

  isThere(leaves) {
    const text = leaves.map(told).join('\n');
    this.known ??= new Set(this.made.ended.map((each) => each.leaves.map(told).join('\n')));
    return this.known.has(text);
  }

  // Why there is no outcome that is wanted. The trees as they were first tell which values are strange, however often one asks.
  async reasons(isWanted) {
    this.strange ??= new Strange(this.trees);
    return reasonsOf(this.executions, this.strange, (leaves) => this.isThere(leaves), isWanted);
  }

  // Why the check holds always.
  async why() {
    const check = this.asked && new Check(this.asked);
    const fails = (leaves) => leaves.some(({ failed, end }) => failed.length || end === 'assert')
      || (check !== null && !check.holds(this.names, leaves));
    return this.reasons(fails);
  }

  // What the words say of an outcome: those that there are, or why there is none.
  async named(words) {
    const wanted = this.wanted(words);
    const isWanted = (leaves) => [...wanted].every(([agent, text]) => isOf(leaves[agent], text));
    const outcomes = this.answer.outcomes.filter(({ leaves }) => isWanted(leaves));
    const told = async (outcome) => ({ ...plain(outcome), example: await this.example(outcome) });
    if (outcomes.length) return { outcomes: await Promise.all(outcomes.map(told)) };
    return { outcomes, reasons: await this.reasons(isWanted) };
  }

  // `A: true, B: [0, 1]`, as what the agents' numbers are told to give.
  wanted(words) {
    let given;
    try {
      given = vm.runInContext(`({${words}\n})`, vm.createContext(), { timeout: PATIENCE });
      return new Map(Object.entries(given).map(([name, value]) => [this.agentOf(name), shown(dataOf(value, null))]));
    } catch (error) {
      if (error instanceof Refusal) throw error;
      throw new Refusal(`these words name no outcome: ${error.message}: write the agents and what they return, as A: true, B: 0`, null, 2);
    }
  }

  agentOf(name) {
    const agent = this.names.indexOf(name);
    if (agent < 0) throw new Refusal(`there is no agent ${name}: there are ${this.names.join(', ')}`, null, 2);
    return agent;
  }
}

const isOf = (leaf, text) => text === shown(dataIn(leaf)) || text === JSON.stringify(told(leaf));
const plain = ({ text, isPerhaps, holds }) => ({ text, isPerhaps, holds });

module.exports = { Details, plain };
