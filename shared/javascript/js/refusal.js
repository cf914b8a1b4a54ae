'use strict';
// What can't be followed: a sentence with what to write instead, and where: {file, line}, or null.

class Refusal extends Error {
  constructor(text, at = null, status = 1) {
    super(text);
    this.at = at;
    this.status = status;
  }
}

// A limit of a text or of the texts together.
class Limit extends Refusal {}

// The line that most of these accesses stand on, and how many: {at, times}.
function busiest(events) {
  const lines = new Map();
  for (const { at } of events.filter((event) => event.at)) {
    const key = `${at.file}:${at.line}`;
    lines.set(key, { at, times: (lines.get(key)?.times ?? 0) + 1 });
  }
  return [...lines.values()].sort((a, b) => b.times - a.times)[0] ?? { at: null, times: 0 };
}

module.exports = { Limit, Refusal, busiest };
