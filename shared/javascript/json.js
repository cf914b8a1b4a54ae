'use strict';
// The parts of a report's JSON, in whatever layout and order of keys it stands; outcomes are parsed one by one.

const { Fault } = require('./lines.js');
const { FORM } = require('./report.js');

const OPENS_OUTCOMES = /[{,]\s*"outcomes"\s*:\s*\[$/;

function parse(text, what) {
  try {
    return JSON.parse(text);
  } catch (error) {
    throw new Fault(`${what} is no JSON: ${error.message}`);
  }
}

// Cuts a JSON text: `outside` is all of it but the members of the list `outcomes`, each of which `take` is given.
class Cutter {
  constructor(opened, take) {
    Object.assign(this, { opened, take, outside: '', member: '', depth: 0, quoted: false, escaped: false, listing: false });
  }

  feed(text) {
    let start = 0;
    for (let place = 0; place < text.length; place += 1) {
      const sign = text[place];
      if (this.quoted) {
        if (this.escaped) this.escaped = false;
        else if (sign === '\\') this.escaped = true;
        else if (sign === '"') this.quoted = false;
      } else if (sign === '"') {
        this.quoted = true;
      } else if (this.cuts(sign)) {
        this.keep(text.slice(start, place));
        start = this.cut(sign) ? place + 1 : place;
      }
    }
    this.keep(text.slice(start));
  }

  // Whether something may end or begin at this sign; it counts the depth.
  cuts(sign) {
    if (sign === '[' || sign === '{') {
      this.depth += 1;
      return this.depth === 2 && sign === '[';
    }
    if (sign === ']' || sign === '}') {
      this.depth -= 1;
      return this.listing && this.depth === 1;
    }
    return this.listing && this.depth === 2 && sign === ',';
  }

  keep(text) {
    if (this.listing) this.member += text;
    else this.outside += text;
  }

  // Whether the sign itself is left out of what is kept next.
  cut(sign) {
    if (!this.listing) {
      this.listing = OPENS_OUTCOMES.test(`${this.outside}[`);
      if (this.listing) {
        this.outside += '[';
        this.opened(`${this.outside}]}`);
      }
      return this.listing;
    }
    if (sign === ',' || this.member.trim() !== '') this.take(parse(this.member, 'an outcome'));
    this.member = '';
    this.listing = sign === ',';
    return this.listing;
  }
}

function checked(document) {
  if (document === null || typeof document !== 'object' || Array.isArray(document)) throw new Fault('no JSON object');
  if (document.version !== FORM) throw new Fault(`version ${JSON.stringify(document.version)} isn't known, only ${FORM}`);
  return document;
}

// Gives each part of the report whose JSON it is fed.
class JsonReader {
  constructor(give) {
    Object.assign(this, { give, waiting: [], begun: null });
    this.cutter = new Cutter((text) => this.opened(text), (outcome) => this.outcome(outcome));
  }

  begin(document) {
    this.begun = checked(document);
    this.give({ begins: { test: this.begun.test, registers: this.begun.registers } });
  }

  opened(text) {
    const head = parse(text, 'the beginning');
    if (head.version !== undefined && head.test !== undefined && head.registers !== undefined) this.begin(head);
  }

  outcome(outcome) {
    if (this.begun) this.give({ outcome });
    else this.waiting.push(outcome);
  }

  end() {
    const document = checked(parse(this.cutter.outside, 'the text'));
    if (document.kind !== 'report') return this.give({ all: document });
    if (!this.begun) this.begin(document);
    for (const outcome of this.waiting) this.give({ outcome });
    return this.give({ ends: document });
  }
}

// Gives each part of the report whose JSON a stream holds, or of `several`, each on a line of its own; `begin` is called for each, and
// returns what its parts are given to. Waits for `after` after each piece.
async function readJson(stream, begin, { after, several }) {
  let reader = several ? null : new JsonReader(begin());
  for await (const chunk of stream) {
    const text = chunk.toString('latin1');
    for (const [place, piece] of (several ? text.split('\n') : [text]).entries()) {
      if (place > 0 && reader) {
        reader.end();
        reader = null;
      }
      if (piece !== '') {
        reader ??= new JsonReader(begin());
        reader.cutter.feed(piece);
        await after();
      }
    }
  }
  if (reader) reader.end();
}

module.exports = { readJson };
