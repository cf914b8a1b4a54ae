'use strict';
// Modules of JavaScript in files of their own, as Node loads them, put together for a browser: as one script, or, for the frame in which
// the page's browser runs JavaScript from the editor, as texts in its worker's.

const crypto = require('crypto');
const fs = require('fs');
const path = require('path');

const SHARED = path.resolve(__dirname, '..', '..', 'shared');
const JS = 'javascript/js';
const PACKAGES = { acorn: 'acorn/dist/acorn.js', 'acorn-walk': 'acorn-walk/dist/walk.js' };
const NODE = '/usr/share/nodejs';  // where Debian has packages

const read = (...place) => fs.readFileSync(path.join(...place), 'utf8');

// Where the modules stand that one requires, by the names that it has for them.
function placesOf(place, text, instead) {
  const found = (name) => (name.startsWith('.') ? path.posix.join(path.posix.dirname(place), name) : name);
  const names = place.endsWith('.json') ? [] : [...text.matchAll(/require\('([^']+)'\)/g)].map(([, name]) => name);
  return Object.fromEntries(names.map((name) => [name, instead[found(name)] ?? found(name)]));
}

// The texts of these modules and of all that they require, by their places in shared/. `given` has texts of some that stand nowhere,
// `instead` the places of others that are taken in place of some.
function modules(entries, given, instead) {
  const found = {};
  const waiting = [...entries];
  while (waiting.length) {
    const place = waiting.pop();
    if (found[place] === undefined) {
      found[place] = given[place] ?? read(SHARED, place);
      waiting.push(...Object.values(placesOf(place, found[place], instead)));
    }
  }
  return found;
}

// One script that does what this module does.
function script(entry, given, instead) {
  const defined = ([place, text]) => `${JSON.stringify(place)}: [${JSON.stringify(placesOf(place, text, instead))}, `
    + `(require, module) => {\n${place.endsWith('.json') ? `module.exports = ${text};\n` : text}}],\n`;
  return `((modules) => {
  const made = {};
  const load = (place) => {
    if (!made[place]) {
      made[place] = { exports: {} };
      const [places, define] = modules[place];
      define((name) => load(places[name]), made[place]);
    }
    return made[place].exports;
  };
  load(${JSON.stringify(entry)});
})({
${Object.entries(modules([entry], given, instead)).sort(([one], [other]) => (one < other ? -1 : 1)).map(defined).join('')}});
`;
}

// The frame, whose policy allows its script and such a worker, and no network.
function sandbox() {
  const packages = Object.fromEntries(Object.entries(PACKAGES).map(([name, place]) => [name, read(NODE, place)]));
  const entries = [`${JS}/page/worker.js`, `${JS}/page/host.js`, `${JS}/memory.js`, ...Object.keys(packages)];
  const text = (value) => JSON.stringify(value).replace(/</g, '\\u003c');
  const instead = { [`${JS}/host.js`]: `${JS}/page/host.js` };
  const found = Object.entries(modules(entries, packages, instead)).map(([place, source]) => (
    [place, { source, places: placesOf(place, source, instead) }]));
  const worker = `((sources) => {${read(SHARED, JS, 'page/loader.js')}})(${JSON.stringify(Object.fromEntries(found))});`;
  const framed = `((worker) => {${read(SHARED, JS, 'page/frame.js')}})(${text(worker)});`;
  const digest = crypto.createHash('sha256').update(framed).digest('base64');
  return `<!doctype html>
<html lang="en">
<meta charset="utf-8">
<meta http-equiv="Content-Security-Policy" content="default-src 'none'; script-src 'sha256-${digest}' 'unsafe-eval'; worker-src blob:">
<title>jslit: JavaScript is run here</title>
<script>${framed}</script>
</html>
`;
}

module.exports = { SHARED, read, sandbox, script };
