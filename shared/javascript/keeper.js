'use strict';
// keeper.js MARK [FOLDER]: waits until its standard input ends, which a command holds open as long as it lives. Where the
// command hasn't said before that it is done, as where it was killed, it ends what the command has started and removes
// its folder.

const fs = require('fs');
const { text } = require('stream/consumers');
const { Processes } = require('./processes.js');

const [mark, folder] = process.argv.slice(2);
text(process.stdin).catch(() => '').then((said) => {
  if (said === 'done') return;
  new Processes(mark).end();
  if (folder !== undefined) fs.rmSync(folder, { recursive: true, force: true });
});
