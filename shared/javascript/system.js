'use strict';
// What the system gives to a command: its words, and names, numbers and faults in the words in which commands print them.

const fs = require('fs');
const os = require('os');
const { getSystemErrorMap } = require('util');

// The words of a command as they were given: Node takes them for UTF-8, which a file's name need not be. A byte that is none stands as a
// character from U+DC80 on, as in Python. By /proc, so on Linux; elsewhere they are Node's.
const isUtf8 = (bytes) => Buffer.from(bytes.toString('utf8'), 'utf8').equals(bytes);
const wordOf = (bytes) => (isUtf8(bytes) ? bytes.toString('utf8')
  : Array.from(bytes, (byte) => String.fromCharCode(byte < 128 ? byte : 0xdc00 + byte)).join(''));

function givenWords() {
  const words = process.argv.slice(2);
  try {
    const all = fs.readFileSync('/proc/self/cmdline').toString('latin1').split('\0').slice(0, -1);
    return words.length === 0 ? [] : all.slice(-words.length).map((word) => wordOf(Buffer.from(word, 'latin1')));
  } catch {
    return words;
  }
}

// A word as the path that it names.
function pathOf(word) {
  if (!/[\udc80-\udcff]/.test(word)) return word;
  return Buffer.concat([...word].map((sign) => (
    /[\udc80-\udcff]/.test(sign) ? Buffer.from([sign.charCodeAt(0) & 255]) : Buffer.from(sign, 'utf8'))));
}

// What is said of a call that failed; of a folder as other commands say it.
function strerror({ code, errno, message }) {
  const said = code === 'EISDIR' ? 'Is a directory' : getSystemErrorMap().get(errno)?.[1] ?? message;
  return said[0].toUpperCase() + said.slice(1);
}

// A name of a file as it may be printed: what would move a terminal's cursor, or is no text, stands as its bytes.
const shown = (name) => [...String(name)].map((sign) => (sign === ' ' || !/[\p{C}\p{Z}]/u.test(sign) ? sign
  : [...Buffer.from(pathOf(sign))].map((byte) => `\\x${byte.toString(16).padStart(2, '0')}`).join(''))).join('');

// How a process ended: its status, or the number of the signal that ended it, below 0.
const statusOf = ({ status, signal }) => (signal ? -os.constants.signals[signal] : status ?? 0);

module.exports = { givenWords, pathOf, shown, statusOf, strerror, wordOf };
