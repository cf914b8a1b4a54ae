'use strict';
// The page's worker: is given the module's bytes with each question, and answers one question after the other.

const { Trap, load } = require('../../../embed/npm/index.mjs');
const { MEBIBYTES, answer } = require('./answer.js');
const { open } = require('./running.js');

let opened = null;

onmessage = async ({ data: { module, asked } }) => {
  opened ??= load({ bytes: module, most: MEBIBYTES << 20 }).then(open);
  try {
    await opened;
    postMessage(await answer(asked));
  } catch (error) {
    const what = error instanceof Trap ? 'a trap in the engine' : error.name;
    postMessage({ kind: 'failed', said: `${what}: ${error.message}` });
  }
};
