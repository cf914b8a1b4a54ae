'use strict';
// A file as a syntax tree, by acorn: Debian's package is node-acorn.

const { Refusal } = require('./refusal.js');

const FOLDERS = ['/usr/share/nodejs', '/usr/lib/nodejs'];   // where Debian has packages

// A package, as Node finds it, or where Debian puts it.
function load(name, file) {
  for (const place of [name, ...FOLDERS.map((folder) => `${folder}/${name}/dist/${file}`)]) {
    try {
      return require(place);
    } catch (error) {
      if (error.code !== 'MODULE_NOT_FOUND' && error.code !== 'ERR_ACCESS_DENIED') throw error;
    }
  }
  throw new Refusal(`${name} isn't there; Debian's package is node-acorn`, null, 70);
}

const acorn = load('acorn', 'acorn.js');
const walk = load('acorn-walk', 'walk.js');

const OPTIONS = { ecmaVersion: 'latest', locations: true, allowReturnOutsideFunction: true, allowHashBang: true };

// As a script or, where it has import or export, as a module.
function parse(source, file) {
  const faults = [];
  for (const sourceType of ['script', 'module']) {
    try {
      return { tree: acorn.parse(source, { ...OPTIONS, sourceType }), isModule: sourceType === 'module' };
    } catch (error) {
      if (!error.loc) throw error;
      faults.push(error);
    }
  }
  const fault = /import|export/.test(faults[0].message) ? faults[1] : faults[0];
  const text = fault.message.replace(/ \(\d+:\d+\)$/, '');
  throw new Refusal(`this isn't read as JavaScript: ${text} (of TypeScript the types have to go first)`, { file, line: fault.loc.line });
}

module.exports = { parse, walk };
