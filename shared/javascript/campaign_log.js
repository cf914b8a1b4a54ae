'use strict';
// The log of a campaign: a line of JSON for each run that has ended. A campaign that was stopped goes on from it: what was tried is
// not run again, and what failed, was not run, had no report or was not tried enough is. Of several lines of a run the last counts,
// but that it failed before is kept.

const fs = require('fs');
const { Failure, plain } = require('./lines.js');
const { RESULTS, faultOf, lineOf, placeOf } = require('./record.js');

const TRIED = ['allowed', 'not allowed'];
const PIECE = 1 << 24;             // bytes of the file that are read at a time, and at most of a line

// A digest's first twelve digits tell it from others here: numbers take less memory than texts.
const keyOf = (digest) => parseInt(digest.slice(0, 12), 16);

class Log {
  // Takes what stands in the file; a last line that has no end, as where the machine stopped, is cut off.
  constructor(file) {
    this.file = file;
    this.places = new Map();       // what is kept of the runs of a place by their texts
    this.length = 0;
    this.lines = 0;
    if (file === null) return;
    try {
      this.to = fs.openSync(file, 'a+');
      this.read();
    } catch (error) {
      throw error instanceof Failure ? error : new Failure(4, plain(error.message));
    }
  }

  // Reads the lines, piece by piece.
  read() {
    const piece = Buffer.alloc(PIECE);
    let rest = 0;                  // bytes of a line whose end isn't there yet, at the piece's beginning
    for (let at = 0, more; (more = fs.readSync(this.to, piece, rest, PIECE - rest, at)) > 0; at += more) {
      const bytes = piece.subarray(0, rest + more);
      let from = 0;
      for (let end; (end = bytes.indexOf(10, from) + 1) > 0; from = end) this.takeLine(bytes.subarray(from, end));
      if (from === 0 && bytes.length === PIECE) {
        throw new Failure(4, `line ${this.lines + 1} of ${plain(this.file)} is longer than any of a log`);
      }
      rest = piece.copy(piece, 0, from, bytes.length);
    }
    if (rest > 0) fs.ftruncateSync(this.to, this.length);
  }

  takeLine(bytes) {
    this.lines += 1;
    if (bytes.length > 1) this.keep(this.recordIn(bytes.toString()), this.length);
    this.length += bytes.length;
  }

  recordIn(line) {
    const fault = (text) => new Failure(4, `line ${this.lines} of ${plain(this.file)} is none of a log: ${text}`);
    let run;
    try {
      run = JSON.parse(line);
    } catch {
      throw fault('it is no JSON');
    }
    const text = faultOf(run);
    if (text !== null) throw fault(plain(text));
    return run;
  }

  // Only this is kept of a line: where it begins, its result, and whether the run failed before.
  keep(run, at) {
    const place = placeOf(run);
    if (!this.places.has(place)) this.places.set(place, new Map());
    const texts = this.places.get(place);
    const old = texts.get(keyOf(run.text));
    const failedBefore = (old !== undefined && old % 2 === 1) || run.failed_before > 0 || run.result === 'failed';
    texts.set(keyOf(run.text), (at * RESULTS.length + RESULTS.indexOf(run.result)) * 2 + Number(failedBefore));
  }

  // What is known of a run: its record, where it was tried, and whether it failed before.
  found(run) {
    const kept = this.places.get(placeOf(run))?.get(keyOf(run.text));
    if (kept === undefined) return { failed: false };
    const [failed, rest] = [kept % 2 === 1, Math.floor(kept / 2)];
    if (!TRIED.includes(RESULTS[rest % RESULTS.length])) return { failed };
    // (digests may be alike in what they are looked up by)
    const record = this.lineAt(Math.floor(rest / RESULTS.length));
    return record.text === run.text ? { failed, record } : { failed };
  }

  lineAt(at) {
    let bytes = Buffer.alloc(1 << 14);
    for (;;) {
      const more = fs.readSync(this.to, bytes, 0, bytes.length, at);
      const end = bytes.subarray(0, more).indexOf(10);
      if (end >= 0) return JSON.parse(bytes.subarray(0, end).toString());
      bytes = Buffer.alloc(bytes.length * 4);
    }
  }

  add(run) {
    if (this.file === null) return;
    const line = Buffer.from(lineOf(run));
    try {
      for (let at = 0; at < line.length;) at += fs.writeSync(this.to, line, at);
    } catch (error) {
      throw new Failure(4, `the log: ${plain(error.message)}`);
    }
  }
}

module.exports = { Log };
