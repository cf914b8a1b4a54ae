'use strict';
// Lines of a stream, and a writer that waits for its stream, so that a long report is never held whole; and what is said instead.

const LONGEST_LINE = 65536;

class Fault extends Error {}

// Why a command ends with a status other than 0.
class Failure extends Error {
  constructor(status, message) {
    super(message);
    this.status = status;
  }
}

// A text as a terminal may be given it, on one line: control characters stand as numbers, and bytes that are no UTF-8 (system.js).
const plain = (text) => String(text).replace(/[\x00-\x1f\x7f-\x9f\udc80-\udcff]/g, (sign) => (
  `\\x${(sign.charCodeAt(0) & 255).toString(16).padStart(2, '0')}`));

// Gives each line of a stream to `take`, without the byte 10 that ends it, and waits where `take` gives a promise.
async function eachLine(stream, take) {
  let rest = '';
  let number = 0;
  for await (const chunk of stream) {
    const lines = (rest + chunk.toString('latin1')).split('\n');
    rest = lines.pop();
    for (const line of lines) {
      number += 1;
      const wait = take(line);
      if (wait) await wait;
    }
    if (rest.length > LONGEST_LINE) throw new Fault(`line ${number + 1} is longer than any line of a report`);
  }
  if (rest !== '') throw new Fault(`line ${number + 1} doesn't end: the report breaks off`);
}

// Collects text, and writes it in large pieces.
class Writer {
  constructor(stream) {
    Object.assign(this, { stream, pieces: [], length: 0 });
  }

  add(text) {
    this.pieces.push(text);
    this.length += text.length;
  }

  // A promise where the stream has to be waited for.
  drain() {
    return this.length > LONGEST_LINE ? this.flush() : undefined;
  }

  flush() {
    const text = this.pieces.join('');
    this.pieces = [];
    this.length = 0;
    return new Promise((done, failed) => {
      this.stream.write(text, 'latin1', (error) => (error ? failed(error) : done()));
    });
  }
}

module.exports = { Failure, Fault, Writer, eachLine, plain };
