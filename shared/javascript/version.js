'use strict';
// The version, as the program prints it.

const fs = require('fs');
const path = require('path');

const [VERSION] = fs.readFileSync(path.resolve(__dirname, '..', '..', 'docs', 'help', 'version.txt'), 'latin1').split('\n');

module.exports = { VERSION };
