'use strict';
// JavaScript from the editor, which this browser runs: a worker in a sandboxed frame explores it, and asks this page about litmus texts.
// What comes from there may be the code's own words, so it is taken for texts to ask about and for lines to show, and for nothing else.

const { ask, rest, stop } = require('./ask.js');
const { make } = require('./make.js');
const limits = require('../../limits.json');
const { signsOf } = require('../signs.js');

const SECONDS = 120;      // for an answer
const SILENT = 12;        // how many seconds the frame may say nothing
const RUN = 5000;         // how many milliseconds a run may take
const AT_ONCE = 2;        // texts that are asked about
const MOST = 8 << 20;     // signs of a message

const isText = (value) => typeof value === 'string';
const isList = (value, is) => Array.isArray(value) && value.every(is);
const isLines = (value) => isList(value, isText);
const isOutcome = (value) => isText(value?.text) && typeof value.holds === 'boolean' && typeof value.isPerhaps === 'boolean';
// What may come from the worker, by the name of its first part.
const FORMS = {
  ask: ({ ask: number, text, why }) => Number.isSafeInteger(number) && isText(text)
    && (why === undefined || (isLines(why) && (why.length === 0 || (why.length === 2 && why[0] === '--from')))),
  runs: ({ runs, who }) => runs === null || (typeof runs === 'number' && (who === null || isText(who))),
  told: ({ told }) => isList(told?.outcomes, isOutcome) && ['always', 'sometimes', 'never', null].includes(told.verdict)
    && isText(told.race) && isList(told.races, isLines) && isList(told.hangs, isLines) && isLines(told.lines),
  lines: ({ lines }) => isLines(lines),
  refusal: ({ refusal }) => isText(refusal?.text) && (refusal.line === null || Number.isSafeInteger(refusal.line)),
  failed: ({ failed }) => isText(failed),
};

// A message in one of these forms, with its kind, or null.
function heard(data) {
  try {
    const told = isText(data) && data.length <= MOST ? JSON.parse(data) : null;
    const kind = Object.keys(FORMS).find((each) => Object.hasOwn(told, each));
    return FORMS[kind](told) ? { kind, ...told } : null;
  } catch {
    return null;
  }
}

let sessions = 0;

class Session {
  // `given` is {files, use} for the worker; `tell` is called with what comes of it: {told}, {lines}, {refusal}, {failed}, or
  // {stopped} with words, after which the session is over.
  constructor(given, tell) {
    Object.assign(this, { tell, name: `javascript ${sessions += 1}`, waiting: [], open: new Set(), isOver: false, texts: 0, run: null });
    this.frame = make('iframe', { sandbox: 'allow-scripts', src: 'sandbox.html', title: 'The code of the editor', hidden: true });
    this.frame.addEventListener('load', () => this.begin(given), { once: true });
    document.body.append(this.frame);
    this.wait();
  }

  begin(given) {
    if (this.isOver) return;
    const [work, life] = [new MessageChannel(), new MessageChannel()];
    work.port1.onmessage = ({ data }) => this.take(heard(data));
    life.port1.onmessage = ({ data }) => {
      this.last = Date.now();
      if (isText(data?.failed)) this.end({ failed: `the worker that runs the code ended: ${data.failed}` });
    };
    this.say = (told) => work.port1.postMessage(JSON.stringify(told));
    this.frame.contentWindow.postMessage(null, '*', [work.port2, life.port2]);
    this.last = Date.now();
    this.pulse = setInterval(() => {
      life.port1.postMessage(null);
      const isGone = Date.now() - this.last > SILENT * 1000;
      if (isGone) this.end({ stopped: 'the frame with the code is gone: perhaps it took more memory than there is' });
    }, 1000);
    this.say(given);
  }

  // Bounds the time until the next answer.
  wait() {
    clearTimeout(this.clock);
    this.clock = setTimeout(() => this.end({ stopped: `no answer within ${SECONDS} seconds` }), SECONDS * 1000);
  }

  // Asks about an answer that was told: {example}, {why} or {outcome}.
  more(asked) {
    this.wait();
    this.say(asked);
  }

  take(message) {
    if (this.isOver || message === null) return;
    if (message.kind === 'ask') {
      this.waiting.push(message);
      this.next();
    } else if (message.kind === 'runs') this.watch(message);
    else {
      clearTimeout(this.clock);
      this.tell(message);
    }
  }

  watch({ runs, who }) {
    clearTimeout(this.run);
    if (runs === null) return;
    const words = who === null ? 'a check' : who === 'main' ? who : `the agent ${who.slice(0, 40)}`;
    this.run = setTimeout(() => this.end({ stopped: `${words} runs for five seconds without an end` }), Math.min(runs, RUN));
  }

  next() {
    while (this.open.size < AT_ONCE && this.waiting.length > 0) this.answer(this.waiting.shift());
  }

  async answer({ ask: number, text, why }) {
    const name = `${this.name} ${number}`;
    this.open.add(name);
    const answer = await this.asked(name, text, why);
    this.open.delete(name);
    if (this.isOver || answer === null) return;
    this.texts += 1;
    if (answer.kind === 'values' || answer.kind === 'execution') this.say({ ...answer, ask: number });
    else if (answer.kind === 'stopped') this.end({ stopped: `the program was stopped on a text at its limit of ${answer.limit}` });
    else this.end({ failed: answer.said });
    this.next();
  }

  async asked(name, text, why) {
    if (signsOf(text).length > limits.text) return { kind: 'failed', said: 'a text is too long' };
    return why === undefined ? ask(name, 'values', {}, text) : ask(name, 'execution', { sources: why[1] ?? '' }, text);
  }

  // Ends the worker with its frame, and says why where there is something to say.
  end(told = null) {
    if (this.isOver) return;
    this.isOver = true;
    for (const name of this.open) stop(name);
    rest();
    clearTimeout(this.clock);
    clearTimeout(this.run);
    clearInterval(this.pulse);
    this.frame.remove();
    if (told) this.tell({ kind: Object.keys(told)[0], ...told });
  }
}

module.exports = { Session };
