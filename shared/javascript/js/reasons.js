'use strict';
// Why an outcome can't be: the ways that the agents would have to go together, and the clause that refuses each of them. First those on
// which they read what the program says they can; where no clause refuses one of these, those with the fewest strange values.

const { areNotified } = require('./explore.js');
const { told } = require('./answer.js');
const { wayOf } = require('./straight.js');

const MOST_OUTCOMES = 20000;   // that are looked at: what the agents would return together
const MOST_WAYS = 200;         // of which jslit-why is asked
const MOST_STRANGE = 3;        // values on ways together

// All ways of a tree that come to an end: {agent, values, leaf, text (what its agent gives), length, strange (how many of its values)}.
function waysOf(tree, agent, strange) {
  const ways = [];
  const go = (node, values, number) => {
    if (!node || (node.leaf && node.leaf.end === 'stutter')) return;
    if (node.leaf) {
      const { steps } = wayOf(tree, agent, values);
      ways.push({ agent, values, leaf: node.leaf, text: told(node.leaf), length: steps.length, strange: number });
    } else if (node.kids) {
      node.kids.forEach((kid, value) => go(kid, [...values, value], number + (strange.isStrange(agent, node, value) ? 1 : 0)));
    } else go(node.next, values, number);
  };
  go(tree.root, [], 0);
  return ways;
}

// The ways of each agent by what it gives and how strange they are, those with few accesses first.
function groupsOf(strange) {
  return strange.list.map((tree, agent) => {
    const groups = new Map();
    for (const way of waysOf(tree, agent, strange).sort((a, b) => a.length - b.length)) {
      const key = `${way.strange} ${way.text}`;
      groups.set(key, [...groups.get(key) ?? [], way]);
    }
    return [...groups.values()];
  });
}

// A group of each agent, with so many strange values together.
function* together(groups, number, chosen = []) {
  if (chosen.length < groups.length) {
    for (const group of groups[chosen.length]) {
      if (group[0].strange <= number) yield* together(groups, number - group[0].strange, [...chosen, group]);
    }
  } else if (number === 0) yield chosen;
}

function* products(lists, place = 0, chosen = []) {
  if (place === lists.length) yield chosen;
  else for (const each of lists[place]) yield* products(lists, place + 1, [...chosen, each]);
}

// The ways together whose outcome isn't one of those that there are, and is wanted.
function* wanted(groups, number, isThere, isWanted) {
  let looked = 0;
  for (const chosen of together(groups, number)) {
    if ((looked += 1) > MOST_OUTCOMES) return;
    const leaves = chosen.map(([{ leaf }]) => leaf);
    if (!isThere(leaves) && isWanted(leaves)) yield* products(chosen);
  }
}

// What forbids these ways: {ways (how many were looked at), isWhole, clauses: [{clause, section, count}], those first that forbid most,
// impossible (of how many some value is written by none), unwoken, first: the first that the first clause refuses, or null}.
async function refusalsOf(executions, list) {
  const found = { ways: 0, isWhole: true, impossible: 0, unwoken: 0 };
  const clauses = new Map();
  let looked = 0;
  for (const ways of list) {
    if ((looked += 1) > MOST_WAYS) {
      found.isWhole = false;
      break;
    }
    found.ways += 1;
    if (!areNotified(ways.map((way) => ({ leaf: way.leaf, notified: notifiedIn(executions, way) })))) {
      found.unwoken += 1;
      continue;
    }
    const { refused, impossible, steps, isPast } = await executions.ofWays(ways.map(({ values }) => values));
    if (impossible) found.impossible += 1;
    else if (isPast) Object.assign(found, { ways: found.ways - 1, isWhole: false });
    else if (refused) {
      const known = clauses.get(refused.clause) ?? { clause: refused.clause, section: refused.section, count: 0, first: refused };
      clauses.set(refused.clause, { ...known, count: known.count + 1 });
    } else if (steps) found.unwoken += 1;   // the program has it: what forbids it is the queue of those that wait
  }
  const sorted = [...clauses.values()].sort((a, b) => b.count - a.count);
  return { ...found, clauses: sorted.map(({ clause, section, count }) => ({ clause, section, count })), first: sorted[0]?.first ?? null };
}

function notifiedIn({ trees }, { agent, values }) {
  const notified = new Map();
  for (const { event } of wayOf(trees.list[agent], agent, values).steps) if (event.notifies !== undefined) {
    notified.set(event.first, (notified.get(event.first) ?? 0) + event.notifies);
  }
  return notified;
}

// What forbids the ways without strange values, and in `strange`, where no clause refuses one of these, the same of the ways with the
// fewest such values: {reads (how many), ..}. The trees grow by these ways. `isAll` says that there are no strange values.
async function reasonsOf(executions, strange, isThere, isWanted) {
  const refusals = (reads) => refusalsOf(executions, wanted(groupsOf(strange), reads, isThere, isWanted));
  const found = await refusals(0);
  if (found.first) return { ...found, isAll: false, strange: null };
  let last = null;
  for (let reads = 1; reads <= MOST_STRANGE && !last?.first; reads += 1) {
    strange.grow(reads);
    if (strange.isNone) return { ...found, isAll: true, strange: null };
    const more = await refusals(reads);
    if (more.ways > 0 || !last?.ways) last = { reads, ...more };
  }
  return { ...found, isAll: false, strange: { ...last, isWhole: last.isWhole && strange.isWhole } };
}

module.exports = { reasonsOf };
