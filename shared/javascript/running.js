'use strict';
// A program that is run on a text, as a process of its own. The page runs it otherwise: page/running.js.

const { Failure, start, stop } = require('./command.js');
const { plain } = require('./lines.js');
const { strerror } = require('./system.js');

const SAID = 4096;  // bytes of a standard error that are kept

// Runs a program on a text. Gives its status, or null where its time, in milliseconds, ran out or it was stopped; what it printed, and the
// beginning of its standard error, or where it `shows` that it stands on this command's own. Where `take` is given what it prints goes
// there, piece after piece, and is not kept; it is stopped once that gives false.
async function runOf(program, words, data, { limit = null, take = null, shows = false } = {}) {
  const { child, ended } = start(program, words, ['pipe', 'pipe', shows ? 'inherit' : 'pipe']);
  const result = { status: null, signal: null, out: '', said: '', late: false, whole: true };
  const pieces = [];
  child.stdin?.on('error', () => {});
  child.stdin?.end(Buffer.isBuffer(data) ? data : Buffer.from(data, 'latin1'));
  const clock = limit === null ? null : setTimeout(() => {
    result.late = true;
    stop(child, 'SIGKILL');
  }, limit);
  child.stdout?.on('data', (piece) => {
    if (take === null) pieces.push(piece);
    else if (result.whole && take(piece.toString('latin1')) === false) {
      result.whole = false;
      stop(child, 'SIGKILL');
    }
  });
  child.stderr?.on('data', (piece) => { result.said = (result.said + piece.toString('latin1')).slice(0, SAID); });
  const { error, status, signal } = await ended;
  clearTimeout(clock);
  if (error) throw new Failure(70, `${plain(program)} isn't run: ${strerror(error)}`);
  result.out = Buffer.concat(pieces).toString('latin1');
  return Object.assign(result, { status: result.late || !result.whole ? null : status, signal });
}

module.exports = { runOf };
