'use strict';
// What the exploring needs of where it runs, here of Node: realms and scripts (`vm`), what kind of object a value is (`types`), and shared
// memory put into a realm. `page/host.js` has the same of a browser.

const fs = require('fs');
const path = require('path');
const { types } = require('util');
const vm = require('vm');

const MEMORY = path.join(__dirname, 'memory.js');
const INSTALL = new vm.Script(`(function (host) {${fs.readFileSync(MEMORY, 'utf8')}\nreturn memory;})`, { filename: 'memory.js' });

// Shared memory in a realm, whose accesses go to `host`.
const memoryIn = (context, host) => INSTALL.runInContext(context)(host);

// Makes the realm ready for a run, of which the name is given: one that was kept stays as it is.
const enter = () => undefined;

module.exports = { enter, memoryIn, types, vm };
