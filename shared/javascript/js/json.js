'use strict';
// The answer as JSON; docs/schemas/js.json has its schema.

const { VERSION } = require('../version.js');

const FORM = 1;

const example = (found) => (found?.steps ? { steps: found.steps, text: found.text, choice: found.choice } : null);

const outcome = (each, found) => ({ outcome: each.text, holds: each.holds, perhaps: each.isPerhaps, example: example(found) });

function refusals({ ways, isWhole, clauses, impossible, unwoken, first }) {
  return { ways, whole: isWhole, clauses, not_written: impossible, not_woken: unwoken,
    first: first && { clause: first.clause, section: first.section, cases: first.cases, whole: first.whole, steps: first.steps,
      reason: first.lines } };
}

const reasons = ({ strange, ...found }) => ({ ...refusals(found), strange: strange && { reads: strange.reads, ...refusals(strange) } });

// Of an outcome that was named.
function namedOf({ outcomes, reasons: why }) {
  return { possible: outcomes.length > 0, outcomes: outcomes.map((each) => outcome(each, each.example)), why: why ? reasons(why) : null };
}

function jsonOf(answer, files) {
  const head = { form: FORM, jslit: VERSION, files, agents: answer.names };
  const { named, examples, races, hangs, why } = answer;
  if (named) return { ...head, kind: 'outcome', ...namedOf(named) };
  return { ...head, kind: 'answer', outcomes: answer.outcomes.map((each, place) => outcome(each, examples[place])), check: answer.verdict,
    why: why ? reasons(why) : null, data_race: races.is,
    races: races.pairs.map((each) => ({ accesses: each.pair, example: example(each) })),
    endless: hangs.map((each) => ({ agents: each.ends, example: example(each) })), notes: answer.notes, texts: answer.texts };
}

module.exports = { jsonOf };
