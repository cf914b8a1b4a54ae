'use strict';
// The colours of a litmus text, by the grammar that other editors have of it: editors/textmate/.

const { byId, make } = require('./make.js');

const MOST = 20000;   // signs of a text that is coloured
const { patterns } = require('./grammar.json');
const FORMS = patterns.map(({ name = '', match, captures = {} }) => ({ name, captures, form: new RegExp(match, 'dg') }));

const piece = (name, text) => (name && text ? make('span', { class: name.split('.')[0] }, text) : text);

// What a pattern found, with its captures in their own colours.
function* piecesOf({ name, captures }, found) {
  let [at, end] = found.indices[0];
  for (const [number, capture] of Object.entries(captures)) {
    const [from, to] = found.indices[number] ?? [at, at];
    yield piece(name, found.input.slice(at, from));
    yield piece(capture.name, found.input.slice(from, to));
    at = to;
  }
  yield piece(name, found.input.slice(at, end));
}

// A line: again and again what is found first, of what is found at one place by the pattern that stands first.
function* coloured(line) {
  for (let at = 0; at < line.length;) {
    let [first, by] = [null, null];
    for (const pattern of FORMS) {
      pattern.form.lastIndex = at;
      const found = pattern.form.exec(line);
      if (found?.[0] && (first === null || found.index < first.index)) [first, by] = [found, pattern];
    }
    yield line.slice(at, first?.index ?? line.length);
    if (first === null) return;
    yield* piecesOf(by, first);
    at = first.index + first[0].length;
  }
}

// Colours the text behind the editor's own signs, which are then not seen.
function paint(text) {
  const isPainted = text.length <= MOST && document.documentElement.dataset.language !== 'javascript';
  byId('text').classList.toggle('is-painted', isPainted);
  byId('colours').replaceChildren(...(isPainted ? text.split('\n').flatMap((line) => [...coloured(line), '\n']) : []));
}

module.exports = { paint };
