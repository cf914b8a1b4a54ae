'use strict';
// Notes on comparisons in the condition that hold since their register is 0 where a path of its agent never reads into it. There is none
// where the condition's answer on such a path doesn't hang on the comparison, as behind a guard.

const { comparisonsOf, eventsOf, meets, walks } = require('./tests.js');

const MOST = 8;         // comparisons of which nothing is known
const MILLISECONDS = 1000;  // for the paths of a test

// What the decisions of a path say of its agent's registers at its end: equal to a number, or unequal to some.
class Known {
  constructor(walk) {
    Object.assign(this, { equal: new Map(), unequal: new Map(), contradicts: false, read: new Set() });
    for (const { event, branch, holds } of walk) {
      if (event) this.takeRead(event);
      else this.takeDecision(branch, holds);
    }
  }

  takeRead({ register }) {
    if (register === null) return;
    this.read.add(register);
    this.equal.delete(register);
    this.unequal.delete(register);
  }

  takeDecision({ register, number, equal }, holds) {
    if (this.answer(register, number) === (equal !== holds)) this.contradicts = true;
    else if (holds === equal) this.equal.set(register, number);
    else this.unequal.set(register, new Set([...this.unequal.get(register) ?? [], number]));
  }

  // Whether the register equals the number, or null where that isn't known.
  answer(register, number) {
    if (!this.read.has(register)) return number === 0;
    if (this.equal.has(register)) return this.equal.get(register) === number;
    return this.unequal.get(register)?.has(number) ? false : null;
  }
}

const keyOf = ({ agent, register, number }) => `${agent}.${register} ${number}`;

// Whether, on a path of which this is known, the condition may hang on this comparison: its answer changes with that of the comparison for
// some answers of those of which nothing is known. Where these are many, or the time is up, it isn't asked.
function hangsOn(condition, comparison, known, end) {
  const answerOf = ({ agent, register, number }) => (agent === comparison.agent ? known.answer(register, number) : null);
  const every = [...new Map(comparisonsOf(condition).map((each) => [keyOf(each), each])).values()];
  const open = every.filter((each) => answerOf(each) === null).map(keyOf);
  if (open.length > MOST) return false;
  const answers = new Map(every.map((each) => [keyOf(each), answerOf(each)]));
  for (let row = 0; row < 2 ** open.length; row += 1) {
    open.forEach((key, place) => answers.set(key, Math.floor(row / 2 ** place) % 2 === 0));
    // The answers say of comparisons whether register and number are equal.
    const [one, other] = [true, false].map((isEqual) => {
      answers.set(keyOf(comparison), isEqual);
      return meets(condition, (each) => answers.get(keyOf(each)) === each.equal);
    });
    if (one !== other) return true;
    if (Date.now() > end) return false;
  }
  return false;
}

// A note for each comparison that holds of 0, and that the condition hangs on where a path that can be taken doesn't read.
function unread(test, line) {
  const end = Date.now() + MILLISECONDS;
  const ways = new Map();
  const knownOf = (name) => {
    if (!ways.has(name)) {
      const { statements } = test.agents.find((agent) => agent.name === name);
      ways.set(name, { statements, known: walks(statements).map((walk) => new Known(walk)) });
    }
    return ways.get(name);
  };
  const compared = new Map(comparisonsOf(test.condition).map((each) => [`${keyOf(each)} ${each.equal}`, each]));
  return [...compared.values()].filter(({ number, equal }) => (number === 0) === equal).flatMap((comparison) => {
    const { agent, register, equal, number } = comparison;
    const { statements, known } = knownOf(agent);
    const paths = known.filter((each) => !each.read.has(register) && !each.contradicts);
    if (!paths.some((each) => hangsOn(test.condition, comparison, each, end))) return [];
    const lines = eventsOf(statements).filter((event) => event.register === register).map((event) => event.line);
    const where = lines.length === 1 ? `line ${lines[0]} isn't reached` : `none of the lines ${lines.join(', ')} is reached`;
    const name = `${agent}.r${register}`;
    const told = `${name} ${equal ? '==' : '!='} ${number}`;
    return [{ line, said: `where ${where}, nothing reads into ${name}: it is 0 there, and \`${told}\` holds` }];
  });
}

module.exports = { unread };
