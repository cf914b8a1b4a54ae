'use strict';
// What an engine printed on an output, of which no more is kept than stands here, however much it was.

const WORDS = 1000;                  // lines that may begin as JSON, of which one is meant for each agent
const SHOWN = 4096;                  // characters that are shown and logged of what is no JSON
const KEPT = 2 ** 20;                // characters of the beginning that are kept for `--keep`, and as many of the end
const LINE = 4096, AGAIN = 400;      // characters of a line that are looked at at a time, and those of them once more
const BEFORE = 100, BEHIND = 300;    // characters that are shown of a line with fatal words

// The words by which engines, their runtimes and sanitizers say that something is broken.
const FATAL = [
  /\b[A-Z]\w*Sanitizer\b/,                                     // clang's and gcc's
  /: runtime error: /,                                         // of undefined behaviour
  /\bassert(?:ion)?\b.*\bfail(?:ed|ure)\b/i, /\bassertion failure\b/i,
  /\bcheck(?:_\w+)? failed\b/i, /\bdcheck\b.*\bfailed\b/i,      // V8 and Chromium
  /(?<!non-)\bfatal\b/i, /\bunreachable code\b/i,
  /\bMOZ_(?:CRASH|ASSERT|RELEASE_ASSERT|DIAGNOSTIC_ASSERT)\b/,  // SpiderMonkey
  /\bpanicked at\b/,
  /\b(?:segmentation fault|bus error|illegal instruction|stack smashing detected|core dumped)\b/i, /^Aborted\b/,
  /\bTrace\/breakpoint trap\b/, /\b(?:received|caught) signal\b/i, /\bSIG(?:SEGV|ABRT|BUS|ILL|FPE|TRAP)\b/,
  /\bdouble free\b/i, /\b(?:malloc|free|realloc|munmap_chunk)\(\): /, /\bcorrupted (?:size|double-linked|unsorted)/,
  /\bout of memory\b/i, /\bterminate called\b/, /\bpure virtual method called\b/, /\bInvalid (?:read|write) of size\b/,
];

// Where such words stand in a line first, or -1.
function fatalAt(line) {
  const places = FATAL.map((word) => line.search(word)).filter((place) => place >= 0);
  return places.length === 0 ? -1 : Math.min(...places);
}

class Output {
  constructor() {
    this.words = [];       // the lines that begin as JSON
    this.others = '';      // the beginning of the others
    this.fatal = null;     // the first of them with fatal words
    this.beginning = '';
    this.end = '';
    this.rest = '';
  }

  take(piece) {
    const room = KEPT - this.beginning.length;
    if (room > 0) this.beginning += piece.slice(0, room);
    if (piece.length > room) this.end += piece.slice(room);
    if (this.end.length > 4 * KEPT) this.end = this.end.slice(-KEPT);
    const lines = piece.split('\n');
    this.rest += lines[0];
    for (const line of lines.slice(1)) {
      this.line();
      this.rest = line;
    }
  }

  // The line that stands in `rest` has ended.
  line() {
    const line = this.rest;
    this.rest = '';
    if (line[0] === '{') {
      if (this.words.length <= WORDS) this.words.push(line);
      return;
    }
    for (let at = 0; this.fatal === null && (at === 0 || at + AGAIN < line.length); at += LINE - AGAIN) {
      const part = line.slice(at, at + LINE);
      const place = fatalAt(part);
      if (place >= 0) this.fatal = part.slice(Math.max(0, place - BEFORE), place + BEHIND).trim();
    }
    if (this.others.length < SHOWN) this.others += `${line.slice(0, SHOWN)}\n`;
  }

  close() {
    if (this.rest !== '') this.line();
    this.others = this.others.slice(0, SHOWN);
    return this;
  }

  // What is kept of the whole, with a line between beginning and end where there was more.
  kept() {
    if (this.end === '') return this.beginning;
    return `${this.beginning}\n[.. between the beginning and the end of what was printed ..]\n${this.end.slice(-KEPT)}`;
  }
}

module.exports = { Output, WORDS };
