'use strict';
// The record of a run, as the log has it on a line and `--json` prints it: docs/schemas/engine.json has the same form.

const FORM = 2;
const RESULTS = ['allowed', 'not enough', 'no report', 'not run', 'failed', 'not allowed'];   // the worse behind
// Of what came to a run of the engine all of RUN stands there.
const ENDED = ['allowed', 'not enough', 'not allowed'];

const isObject = (value) => value !== null && typeof value === 'object' && !Array.isArray(value);
const isString = (value) => typeof value === 'string';
const isCount = (value) => Number.isSafeInteger(value) && value >= 0;
const isNumber = (value) => Number.isFinite(value) && value >= 0;
const isDigest = (value) => isString(value) && /^[0-9a-f]{64}$/.test(value);
const oneOf = (...values) => (value) => values.includes(value);
const orNull = (is) => (value) => value === null || is(value);
const listOf = (is) => (value) => Array.isArray(value) && value.every(is);

function objectOf(fields) {
  const names = Object.keys(fields);
  return (value) => isObject(value) && Object.keys(value).length === names.length && names.every((name) => fields[name](value[name]));
}

const isOutcomes = listOf(objectOf({ values: listOf(isCount), times: isCount }));

// What tells a run from others: on what it was run, where, and how.
const PLACE = {
  engine: isString, engine_file: orNull(isDigest), engine_version: orNull(isString), engine_id: orNull(isString), machine: isString,
  kind: isString, processor: isString, settings: objectOf({ tried: isNumber, in_step: isCount, seed: isCount }),
};
const ABOUT = { jslit: isString, file: isString, date: isString };
const RUN = {
  test: isString, verdict: oneOf('always', 'sometimes', 'never'), registers: listOf(isString),
  end: objectOf({ status: orNull((value) => isCount(value) && value < 1000), signal: orNull(isString), stderr: isString }),
  load: objectOf({ processors: isCount, busy: isNumber, others: isNumber }),
  seconds: isNumber, copies: isCount, in_step: isCount, outcomes: isCount, seen: isOutcomes, not_allowed: isOutcomes,
};
const PERHAPS = { said: isString, why: listOf(isString), again: isString, kept: isString };
const ALWAYS = { form: oneOf(FORM), result: oneOf(...RESULTS), failed_before: isCount, text: isDigest, ...PLACE, ...ABOUT };
const WHOLE = { ...ALWAYS, ...RUN };
const FIELDS = { ...WHOLE, ...PERHAPS };
const NAMES = Object.keys(FIELDS);

const lineOf = (run) => `${JSON.stringify(Object.fromEntries(NAMES.map((name) => [name, run[name]])))}\n`;

// The text that stands for how a run is told from others of the same text.
const placeOf = ({ settings: { tried, in_step: inStep, seed }, ...run }) => (
  JSON.stringify([...Object.keys(PLACE).map((name) => run[name] ?? null), tried, inStep, seed]));

// What is wrong with a value that should be a record, by its first field that isn't as it should be; or null.
function faultOf(run) {
  if (!isObject(run)) return 'it is no object';
  const needed = run.end === undefined && !ENDED.includes(run.result) ? ALWAYS : WHOLE;
  const wrong = NAMES.find((name) => (run[name] === undefined ? Object.hasOwn(needed, name) : !FIELDS[name](run[name])));
  if (wrong !== undefined) return `${run[wrong] === undefined ? 'it has no' : 'this is no'} ${wrong}`;
  const other = Object.keys(run).find((name) => !Object.hasOwn(FIELDS, name));
  return other === undefined ? null : `it has ${JSON.stringify(other.slice(0, 60))}, which no record has`;
}

module.exports = { FORM, RESULTS, faultOf, lineOf, placeOf };
