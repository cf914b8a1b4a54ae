'use strict';
// The files of a program as its user knows them; the harness stands behind the main one, from line `harness.from` on.

const { plain } = require('../lines.js');
const { Printer } = require('./print.js');

const CODE = 56;   // characters of a line of code that are shown

// Gives where something stands, as the user knows it: the harness stands behind the main file, from its line `from` on.
const placesOf = (main, harness) => (at) => {
  if (!at?.file) return { file: null, line: null };
  const { file, line } = at;
  const isHarness = line !== null && file === main && harness && line >= harness.from;
  return isHarness ? { file: harness.name, line: line - harness.from + 1 } : { file, line };
};

class Sources {
  // Texts by their names, the main one first; `use` is a harness, {name, text}, or null.
  constructor(files, use) {
    this.files = files;
    [this.main] = files.keys();
    this.harness = null;
    if (use !== null) {
      const before = files.get(this.main).replace(/\n?$/, '\n');
      this.harness = { name: use.name, from: before.split('\n').length };
      files.set(this.main, before + use.text);
    }
  }

  // What `Answering` is given.
  get given() {
    const name = this.main.replace(/\.\w+$/, '').replace(/\W/g, '_').replace(/^(?=\d)/, '_').slice(0, 32) || '_';
    return { files: [...this.files], main: this.main, harness: this.harness, name };
  }

  at(at) {
    return placesOf(this.main, this.harness)(at);
  }

  // Where something is, as the user knows it.
  place(file, line) {
    const at = this.at({ file, line });
    return at.line === null ? plain(at.file) : `${plain(at.file)}:${at.line}`;
  }

  // The code of a step, or else of its line.
  code({ code, file, line }) {
    const text = plain(code ?? this.line(file, line).trim().replace(/\s+/g, ' '));
    return text.length > CODE ? `${text.slice(0, CODE - 2)}..` : text;
  }

  // A line by the user's places.
  line(file, line) {
    const isHarness = this.harness !== null && file === this.harness.name;
    return this.files.get(isHarness ? this.main : file)?.split('\n')[line - 1 + (isHarness ? this.harness.from - 1 : 0)] ?? '';
  }

  get printer() {
    return new Printer({ main: this.main, place: (file, line) => `${plain(file)}:${line}`, code: (step) => this.code(step) });
  }

  // The same of places within a text.
  placed(text) {
    return text.replaceAll(/([^\s:,]+):(\d+)/g, (all, file, line) => (this.files.has(file) ? this.place(file, Number(line)) : all));
  }

  // A refusal, with its place in front.
  refusal({ text, at }) {
    return `${at?.file ? `${this.place(at.file, at.line)}: ` : ''}${plain(this.placed(text))}`;
  }
}

module.exports = { Sources, placesOf };
