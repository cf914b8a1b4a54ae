'use strict';
// Work on many things, so much of it at a time.

// Gives a function that lets a task begin once fewer than so many run.
function limited(most) {
  const queue = [];
  let free = most;
  return async (task) => {
    if (free === 0) await new Promise((begin) => { queue.push(begin); });
    else free -= 1;
    try {
      return await task();
    } finally {
      if (queue.length) queue.shift()();
      else free += 1;
    }
  };
}

// What `work` makes of each thing, in their order. Once nobody waits for it any more, nothing begins.
async function* inOrder(things, most, work) {
  const turn = limited(most);
  const waiting = [];
  let isWanted = true;
  try {
    for (const thing of things) {
      const made = turn(async () => (isWanted ? work(thing) : null));
      made.catch(() => {});
      waiting.push(made);
      if (waiting.length === 2 * most) yield await waiting.shift();
    }
    while (waiting.length) yield await waiting.shift();
  } finally {
    isWanted = false;
  }
}

module.exports = { inOrder, limited };
