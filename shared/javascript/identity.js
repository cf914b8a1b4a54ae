'use strict';
// Which engine it is: the words of its command, the file that they start, what tells it from a rebuilt one, and the machine.

const crypto = require('crypto');
const fs = require('fs');
const os = require('os');
const path = require('path');
const { Failure, plain } = require('./lines.js');

const BROWSER = /^(?:chromium|chrome|google-chrome)(?:-|$)/;
const VERSION_SECONDS = 5;   // that an engine has to say its version
const WORD = /(?:[^\s'"\\]|\\.|'[^']*'|"(?:[^"\\]|\\.)*")+/gs;

const unquoted = (word) => word.replace(/'([^']*)'|"((?:[^"\\]|\\.)*)"|\\(.)/gs, (_, single, double, sign) => (
  single ?? sign ?? double.replace(/\\(["\\])/g, '$1')));

// The words of a command, parted and quoted as for a shell; a command that is a file as it stands, with its blanks, is one word.
function wordsOf(command) {
  if (command.includes('/') && fs.existsSync(command)) return [command];
  const words = (command.match(WORD) ?? []).map(unquoted);
  if (words.length === 0) throw new Failure(2, 'no engine is named');
  if (command.replace(WORD, '').trim() !== '') throw new Failure(2, `a quote has no end: ${plain(command)}`);
  return words;
}

// A browser is no shell: browser.js opens a page in it.
function startedBy(command) {
  const words = wordsOf(command);
  return BROWSER.test(path.basename(words[0])) ? [process.execPath, path.join(__dirname, 'browser.js'), ...words] : words;
}

// The file that a command's first word names, or null where there is none.
function fileOf(command) {
  const [word] = wordsOf(command);
  const folders = word.includes('/') ? ['.'] : (process.env.PATH ?? '').split(path.delimiter);
  return folders.map((folder) => path.resolve(folder, word)).find((file) => {
    try {
      fs.accessSync(file, fs.constants.X_OK);
      return fs.statSync(file).isFile();
    } catch {
      return false;
    }
  }) ?? null;
}

// The SHA-256 of a file, or null where it can't be read.
function digestOf(file) {
  try {
    return crypto.createHash('sha256').update(fs.readFileSync(file)).digest('hex');
  } catch {
    return null;
  }
}

// What an engine says of its version: the first line for `--version`, or null where there is none in time.
async function versionOf(command, runEngine) {
  const end = await runEngine(command, '--version', VERSION_SECONDS).catch(() => null);
  const line = end?.text.split('\n')[0].trim();
  return end?.status === 0 && end.limit === null && line ? plain(line.slice(0, 200)) : null;
}

// An engine as the records have it; `id` are the user's words for what a digest can't see. Without `runEngine` it isn't asked for its
// version.
async function engineOf(command, id, runEngine) {
  const file = fileOf(command);
  return {
    engine: command, engine_file: file === null ? null : digestOf(file),
    engine_version: file === null || runEngine === null ? null : await versionOf(command, runEngine), engine_id: id,
  };
}

// The machine as the records have it; `name` is the user's own, or that of the host.
function machineOf(name) {
  const cpus = os.cpus();
  return {
    machine: name ?? os.hostname(), kind: `${os.type()} ${os.arch()} ${os.endianness()}`,
    processor: `${(cpus[0]?.model ?? 'unknown').trim()}, ${cpus.length} of ${os.arch()}`,
  };
}

module.exports = { engineOf, machineOf, startedBy };
