'use strict';
// The documents of the site: each as HTML, with the pictures in them. Their links lead to one another, and those to a test of litmus/
// open it on the page; what isn't there is no link. A litmus text or a program that stands in one has a link that opens it.

const fs = require('fs');
const path = require('path');
const { escaped, rendered } = require('./markdown.js');

const TOP = path.resolve(__dirname, '..', '..');
const NAMES = {
  'README.md': 'README', 'docs/TUTORIAL.md': 'Tutorial', 'docs/FORMAT.md': 'The litmus text', 'docs/JAVASCRIPT.md': 'JavaScript',
  'docs/MODEL.md': 'The memory model', 'docs/GLOSSARY.md': 'Glossary', 'litmus/README.md': 'The tests of the library',
  'CHANGELOG.md': 'Changes', 'docs/COMMANDS.md': 'The commands', 'CONTRIBUTING.md': 'Working here',
  'docs/ARCHITECTURE.md': 'Architecture', 'docs/DECISIONS.md': 'Decisions', 'docs/HEADLINE.md': 'The headline',
  'docs/PAGE.md': 'The page', 'docs/ENGINES.md': 'Beside engines',
};
const IN_EACH = 7;  // of these are linked from each document
const PICTURES = ['.svg', '.png'];
// What a whole litmus text has, and a whole program of agents, by their words in an address.
const WHOLE = { t: /^test \w+\nbytes \d+\nagent .*^check /ms, js: /^agents\(/m };
const SIGNS = { amp: '&', lt: '<', gt: '>', quot: '"' };

const isFile = (name) => fs.statSync(path.join(TOP, name), { throwIfNoEntry: false })?.isFile() === true;
const unescaped = (text) => text.replace(/&(?:#(\d+)|(amp|lt|gt|quot));/g, (_, number, word) => SIGNS[word] ?? String.fromCharCode(number));

// Where the site has a file of the repository, or a document as HTML; and its top, as seen from a document.
const served = (name) => `doc/${name.replace(/\.md$/, '.html')}`;
const topOf = (name) => '../'.repeat(served(name).split('/').length - 1);

// The page with this text in its editor.
const addressOf = (top, kind, data) => `${top}index.html#${kind}=${Buffer.from(data).toString('base64url')}`;

// A page with a link behind each block that is a whole text.
const opened = (page, top) => page.replace(/<pre>([^$].*?)<\/pre>\n/gs, (block, inside) => {
  const text = `${unescaped(inside).replace(/\n+$/, '')}\n`;
  const kind = Object.keys(WHOLE).find((each) => WHOLE[each].test(text));
  return block + (kind ? `<p class="open"><a href="${addressOf(top, kind, text)}">Open it in the editor</a></p>\n` : '');
});

// Where a link of this document leads, or null.
function placeOf(name, target) {
  if (/^(?:https?:\/\/|#)/.test(target)) return target;
  const [first, part] = target.split(/#(.*)/s);
  const joined = path.posix.join(path.posix.dirname(name), first).replace(/\/$/, '');
  const file = joined === 'litmus' || joined === 'docs' || `${joined}/README.md` in NAMES ? `${joined}/README.md` : joined;
  if (/^litmus\/[^/]*\.lit$/.test(file) && isFile(file)) return addressOf(topOf(name), 't', fs.readFileSync(path.join(TOP, file)));
  const isThere = (file in NAMES || PICTURES.includes(path.posix.extname(file))) && isFile(file);
  return isThere ? `${topOf(name)}${served(file)}${part ? `#${part}` : ''}` : null;
}

const linked = (page, name) => page.replace(/ (href|src)="([^"]*)"/g, (_, kind, target) => {
  const place = placeOf(name, unescaped(target));
  return place ? ` ${kind}="${escaped(place)}"` : '';
});

function framed(name, there) {
  const top = topOf(name);
  const links = there.slice(0, IN_EACH).map((other) => (
    `<a href="${top}${served(other)}"${other === name ? ' aria-current=page' : ''}>${escaped(NAMES[other])}</a>`));
  return `<!doctype html>
<html lang="en">
<head>
<meta charset="utf-8">
<meta name="viewport" content="width=device-width, initial-scale=1">
<meta name="color-scheme" content="light dark">
<meta http-equiv="Content-Security-Policy" content="default-src 'none'; style-src 'self'; img-src 'self'">
<title>${escaped(NAMES[name])} - jslit</title>
<link rel="icon" href="${top}icon.svg" type="image/svg+xml">
<link rel="stylesheet" href="${top}base.css">
<link rel="stylesheet" href="${top}document.css">
</head>
<body>
<nav><a href="${top}index.html">The page</a> ${links.join(' ')}</nav>
<main class="document">
${opened(linked(rendered(fs.readFileSync(path.join(TOP, name), 'utf8')), name), top)}
</main>
</body>
</html>
`;
}

// The contents of each, by its name in the site.
function documents() {
  const there = Object.keys(NAMES).filter(isFile);
  const pictures = fs.readdirSync(path.join(TOP, 'docs')).filter((name) => PICTURES.includes(path.extname(name)));
  return Object.fromEntries([...there.map((name) => [served(name), framed(name, there)]),
    ...pictures.map((name) => [served(`docs/${name}`), fs.readFileSync(path.join(TOP, 'docs', name))])]);
}

module.exports = { documents };
