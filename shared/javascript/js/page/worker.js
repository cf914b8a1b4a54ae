'use strict';
// The page's worker: it is given {files, use} by the page, asks it {ask, text, why}, which is answered by {ask, ..}, and tells {told} or
// {refusal}. After that it is asked {example: PLACE}, {why: true} or {outcome: WORDS}, and tells {lines}. {runs, who} is told by `host.js`.

const { Answering, Asking } = require('../answering.js');
const { hangLines, linesOf, namedLines, raceLines, reasonLines } = require('../print.js');
const { Refusal } = require('../refusal.js');
const { Sources } = require('../sources.js');
const { tellsPlaces } = require('./host.js');

const WANTED = { examples: false, why: false, outcome: null };

// The answer as the page shows it: what jslit-js prints, and its parts.
function told(answer, printer) {
  const { outcomes, verdict, races, hangs } = answer;
  const pairs = (races.pairs ?? []).map((each) => raceLines({ is: 'yes', pairs: [each] }, true, printer));
  return { outcomes, verdict, race: races.is, races: pairs, hangs: hangs.map((each) => hangLines([each], true, printer)),
    lines: linesOf(answer, printer) };
}

// What is asked about an answer that was told.
async function more(answering, { example, why, outcome }, printer) {
  const { details, answer } = answering;
  if (why) return reasonLines('why', 'fail it', await details.why(), printer);
  if (outcome !== undefined) return namedLines(await details.named(outcome), printer);
  const found = await details.example(answer.outcomes[example]);
  return found ? printer.steps(found.steps) : [];
}

function begin({ say, listen }) {
  const asking = new Asking(say);
  let answering = null;
  let sources = null;
  const start = async ({ files, use }) => {
    sources = new Sources(new Map(files), use);
    answering = new Answering(sources.given, asking);
    const answer = await answering.whole(WANTED);
    answer.notes = answer.notes.map((note) => sources.placed(note));
    say({ told: told(answer, sources.printer) });
  };
  const refuse = (error) => {
    if (!(error instanceof Refusal)) say({ failed: `${error?.name}: ${error?.message}` });
    else say({ refusal: { text: sources.refusal({ text: error.message, at: error.at }), ...sources.at(error.at) } });
  };
  listen((given) => {
    if (!tellsPlaces()) say({ failed: 'this browser doesn\'t tell where code stands: take Chromium, or jslit-js' });
    else if (given.ask !== undefined) asking.answered(given);
    else if (given.files) start(given).catch(refuse);
    else more(answering, given, sources.printer).then((lines) => say({ lines }), refuse);
  });
}

module.exports = { begin };
