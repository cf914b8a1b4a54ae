'use strict';
// site.js FOLDER: writes the page into a folder as files, which any web server serves, of the WebAssembly module on standard input: the
// page itself with the tests of the library in it, the engine, the frame in which JavaScript is run, and the documents.

const fs = require('fs');
const path = require('path');
const { documents } = require('./documents.js');
const { library } = require('./library.js');
const { SHARED, read, sandbox, script } = require('./modules.js');
const { VERSION } = require('../../shared/javascript/version.js');

const TOP = path.dirname(SHARED);
const PAGE = 'javascript/site';
const PACKAGE = '../embed/npm/index.mjs';
// Of a module over processes of the machine there is one over the engine in WebAssembly.
const INSTEAD = { 'javascript/running.js': 'javascript/page/running.js' };
const LICENCES = {
  'LICENSE-MIT': `${TOP}/LICENSE-MIT`, 'LICENSE-APACHE': `${TOP}/LICENSE-APACHE`, 'LICENSE-acorn': '/usr/share/doc/node-acorn/copyright',
};

// The script of the page.
const page = () => script(`${PAGE}/page.js`, {
  [`${PAGE}/library.json`]: JSON.stringify(library()), [`${PAGE}/grammar.json`]: read(TOP, 'editors/textmate/jslit.tmLanguage.json'),
}, {});

// What answers: the module, and the script of the worker that calls it, with the package of npm as a script: a browser starts no worker of
// modules where a page is a file.
function engine(module) {
  const own = read(SHARED, PACKAGE).replace(/^export /gm, '').replace(/import\.meta\.url/g, 'location');
  const version = `module.exports = { VERSION: ${JSON.stringify(VERSION)} };\n`;
  const given = { 'javascript/version.js': version, [PACKAGE]: `${own}\nmodule.exports = { Trap, load };\n` };
  const worker = script('javascript/page/worker.js', given, INSTEAD);
  return `const engine = ${JSON.stringify({ module: module.toString('base64'), worker }, null, 1)};\n`;
}

// The contents of each file, by its name in the site.
function files(module) {
  const fixed = fs.readdirSync(path.join(SHARED, PAGE)).filter((name) => /\.(?:html|css|svg)$/.test(name));
  const copied = [...fixed.map((name) => [name, path.join(SHARED, PAGE, name)]), ...Object.entries(LICENCES)];
  const made = { 'page.js': page(), 'engine.js': engine(module), 'sandbox.html': sandbox() };
  return { ...Object.fromEntries(copied.map(([name, from]) => [name, fs.readFileSync(from)])), ...made, ...documents() };
}

for (const [name, data] of Object.entries(files(fs.readFileSync(0)))) {
  const file = path.join(process.argv[2], name);
  fs.mkdirSync(path.dirname(file), { recursive: true });
  fs.writeFileSync(file, data);
}
