'use strict';
// The tests of litmus/ as a menu: by the headings of its README, each with what it shows.

const fs = require('fs');
const path = require('path');

const LITMUS = path.resolve(__dirname, '..', '..', 'litmus');
const ROW = /^\| \[`([^`]+)`\]\([^)]*\) \| (.*?) \| \w+ \| \d+ .*\|$/;

const read = (name) => fs.readFileSync(path.join(LITMUS, name), 'utf8');
const withoutComment = (text) => text.replace(/^(?:\/\/[^\n]*\n)*/, '');
const sentences = (text) => text.split(/(?<=[.:])\s/);

// The comment that a text opens with, as one line, without what jslit-check compares.
const comment = (text) => text.slice(0, text.length - withoutComment(text).length).split('\n').slice(0, -1)
  .filter((line) => !line.startsWith('// expect:')).map((line) => line.slice(2).trim()).join(' ');

// A test with the comment that its file opens with, and with its text, in which that comment is folded to its first sentence.
function entry(name, shows) {
  const text = read(`${name}.lit`);
  const [first] = sentences(comment(text));
  return { name, shows: shows ?? first, comment: sentences(comment(text)).join(' '), text: `// ${first}\n${withoutComment(text)}` };
}

// Groups, each a heading and its tests; a test that the README doesn't name stands in a last one.
function library() {
  const names = new Set(fs.readdirSync(LITMUS).filter((name) => name.endsWith('.lit')).map((name) => name.slice(0, -4)).sort());
  const groups = [];
  for (const line of read('README.md').split('\n')) {
    const [, name, shows] = ROW.exec(line) ?? [];
    if (line.startsWith('## ')) groups.push({ heading: line.slice(3), tests: [] });
    else if (names.delete(name)) groups.at(-1).tests.push(entry(name, shows));
  }
  groups.push({ heading: 'More', tests: [...names].map((name) => entry(name)) });
  return groups.filter(({ tests }) => tests.length);
}

module.exports = { library };
