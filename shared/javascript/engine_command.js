'use strict';
// The command jslit-engine; docs/ENGINES.md describes it.

const { Failure, isStopping, run } = require('./command.js');
const { Campaign } = require('./campaign.js');
const { Log } = require('./campaign_log.js');
const { runEngine } = require('./engine.js');
const { Summary, brief, histogram } = require('./engine_print.js');
const { engineOf, machineOf } = require('./identity.js');
const { plain } = require('./lines.js');
const { readOptions } = require('./options.js');
const { byJslitJs } = require('./programs.js');
const { lineOf } = require('./record.js');
const { testsIn } = require('./tests_in.js');

const ORDER = [1, 70, 4, 3, 5, 0];
const RUNS = '2000';   // of a file of JavaScript

// The part of the tests that `--shard` names.
function shardOf(files, shard) {
  if (shard === null) return files;
  const found = /^([1-9][0-9]{0,5})\/([1-9][0-9]{0,5})$/.exec(shard);
  const [number, parts] = found?.slice(1).map(Number) ?? [];
  if (!found || number > parts) throw new Failure(2, `--shard ${plain(shard)} is no I/N with 1 <= I <= N`);
  return files.filter((_, place) => place % parts === number - 1);
}

// The words with the engines and the files.
function asked(given) {
  const words = readOptions(given, { many: ['engine'], least: 1 });
  if (words === null) return null;
  const all = testsIn(words.paths);
  const files = shardOf(all, words.shard);
  if (words.report !== null && all.length > 1) throw new Failure(2, `--report is of one test, and there are ${all.length}`);
  const engines = words.engine.length === 0 ? ['node'] : words.engine;
  const isOne = all.length === 1 && engines.length === 1 && !words.json && words.log === null;
  return { ...words, engines, files, isOne };
}

async function main(given) {
  const isAlone = given.length === 1 || (given.length === 3 && given[0] === '--program');
  // A file of JavaScript runs as it is.
  if (isAlone && given.at(-1).endsWith('.js')) return byJslitJs(null, ['--run', RUNS, ...given]);
  const words = asked(given);
  if (words === null) return 0;
  const log = new Log(words.log);
  const engines = [];
  const asks = words.isOne && words.keep === null ? null : (...of) => runEngine(...of, { limits: words });
  for (const command of words.engines) engines.push(await engineOf(command, words['engine-id'], asks));
  const campaign = new Campaign(words, engines, machineOf(words.machine), log);
  const summary = new Summary(engines.length);
  const statuses = new Set();
  let failure;
  await campaign.each(words.files, (each) => {
    statuses.add(each.status);
    if (words.isOne && each.failure) failure = each.failure;
    else if (words.json) process.stdout.write(each.known ? '' : lineOf(each.run));
    else process.stdout.write(words.isOne ? histogram(each, words.seen) : brief(each));
    summary.take(each);
  });
  if (failure) throw failure;
  if (isStopping()) return 0;
  if (!words.isOne) (words.json ? process.stderr : process.stdout).write(summary.text());
  return ORDER.find((status) => statuses.has(status)) ?? 0;
}

run('jslit-engine', main);
