'use strict';
// Each sample by the command, beside the answer that stands with it.

const fs = require('fs');
const path = require('path');
const test = require('node:test');
const assert = require('node:assert');
const { spawnSync } = require('child_process');
const { SAMPLES } = require('./asking.js');

const TOP = path.resolve(__dirname, '..', '..', '..', '..');
const PROGRAM = process.env.JSLIT || path.join(TOP, 'jslit');

// What the command prints, and its status.
function told({ file, use }, ...more) {
  const words = ['--program', PROGRAM, ...more, file, ...(use ? ['--use', use] : [])];
  const { status, stdout, stderr } = spawnSync(path.join(TOP, 'bin', 'jslit-js'), words, { encoding: 'utf8' });
  const rights = /^jslit-js: Node .* with all rights.*\n/;
  return `status ${status}\n${stdout}${stderr.replace(rights, '')}`;
}

for (const sample of SAMPLES) {
  const { name, file } = sample;
  const beside = (end) => file.replace(/\.js$/, `.${end}`);
  test(name, () => assert.equal(told(sample, '--examples'), fs.readFileSync(beside('answer'), 'utf8')));
  // Why its check holds, where that is worth reading.
  if (fs.existsSync(beside('why'))) test(`${name}, why`, () => {
    const lines = told(sample, '--why').split('\n');
    const first = lines.findIndex((line) => line.startsWith('why: '));
    const last = lines.findIndex((line, place) => place > first && !/^( |if |nor |memory-order|coherent|tear|happens)/.test(line));
    assert.equal(`${lines.slice(first, last).join('\n')}\n`, fs.readFileSync(beside('why'), 'utf8'));
  });
}
