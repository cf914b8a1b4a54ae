'use strict';
// What a text has around a line at fault: its agents, the registers that each reads into, names of its own in place of registers, and
// the arrays that it uses. By these a line is mended. Heads and loads are known here also where they are misspelled.

const { codeOf } = require('./forms.js');
const { Cells } = require('./cells.js');
const limits = require('../../limits.json');

const HEAD = /^\s*(?:(?:agent|thread|worker|process|proc|cpu)\s+(\w+)|P(\d+)\b)/i;
const QUESTION = new RegExp('^(?:~\\s*exists|exists|forall|never|always|sometimes|assert|expect|condition|final|check|Check|CHECK|allowed'
  + '|forbidden)\\b');
const REGISTER = /^r[0-7]$/;
const READ_INTO = /^\s*(?:(?:let|const|var|int|auto)\s+)?(r[0-7])\s*(?:=(?!=)|:=|<-)/;
// A name that takes what an access reads, or what looks like one.
const OWN = /^\s*(?:(?:let|const|var|int|auto)\s+)?([A-Za-z_]\w*)\s*(?:=|:=|<-)\s*(?=[A-Za-z_])(?!r[0-7]\b).*[\[(.]/;
const NO_NAMES = /^(?:r[0-7]|[UI](?:8|16|32|64)|Atomics|DV|test|bytes|agent|if|else|check|true|false|and|or|not)$/;

// The name of the agent whose head this is, or null.
function agentOf(line) {
  const found = HEAD.exec(codeOf(line));
  if (!found) return null;
  const name = found[1] || found[2];
  return /^[0-9]/.test(name) ? `P${name}` : name;
}

// `lines` are those of the text as it was given. What `register` has given stays so: a name has one register.
class Scene {
  constructor(lines) {
    Object.assign(this, { lines, agents: [], owners: [], used: new Map(), own: new Map(), given: new Map() });
    for (const line of lines) this.take(codeOf(line));
    this.cells = new Cells(lines);
  }

  take(code) {
    const name = agentOf(code);
    if (name && !this.agents.includes(name)) this.agents.push(name);
    let owner = name || (this.owners.length ? this.owners[this.owners.length - 1] : null);
    if (QUESTION.test(code.trim())) owner = null;
    this.owners.push(owner);
    if (owner === null || name) return;
    const read = READ_INTO.exec(code);
    if (!this.used.has(owner)) this.used.set(owner, new Set());
    if (read) this.used.get(owner).add(read[1]);
    const own = OWN.exec(code);
    if (own && !NO_NAMES.test(own[1])) {
      if (!this.own.has(owner)) this.own.set(owner, new Set());
      this.own.get(owner).add(own[1]);
    }
  }

  owner(number) {
    return number > 0 && number <= this.owners.length ? this.owners[number - 1] : null;
  }

  usedBy(agent) {
    return this.used.get(agent) ?? new Set();
  }

  ownOf(agent) {
    return this.own.get(agent) ?? new Set();
  }

  // The register for this agent's own name, or for a load without one: the first that it has not used. null where it has used all.
  register(number, name = null) {
    const owner = this.owner(number);
    if (!this.given.has(owner)) this.given.set(owner, new Map());
    const given = this.given.get(owner);
    const key = name ?? number;
    if (!given.has(key)) {
      const taken = new Set([...this.usedBy(owner), ...given.values()]);
      const free = Array.from({ length: limits.registers }, (_, n) => `r${n}`).find((register) => !taken.has(register));
      if (free === undefined) return null;
      given.set(key, free);
    }
    return given.get(key);
  }

  // The register of a name that the agent has given to what it reads, or null.
  registerOf(number, name) {
    const owner = this.owner(number);
    if (this.ownOf(owner).has(name)) return this.register(number, name);
    const used = this.usedBy(owner);
    const before = this.lines.slice(0, number - 1).filter((_, at) => this.owner(at + 1) === owner);
    return used.size === 1 && before.some((line) => READ_INTO.test(line)) && this.ownOf(owner).size === 0 ? [...used][0] : null;
  }

  // The register, with its agent, that a name in the condition means where one agent alone can be meant, or null.
  asked(name) {
    const found = REGISTER.test(name)
      ? this.agents.filter((agent) => this.usedBy(agent).has(name)).map((agent) => [agent, name])
      : this.agents.filter((agent) => this.ownOf(agent).has(name)).map((agent) => [agent, this.named(agent, name)]);
    return found.length === 1 && found[0][1] ? found[0].join('.') : null;
  }

  // The register that an agent's own name has.
  named(agent, name) {
    return this.owners.includes(agent) && this.ownOf(agent).has(name) ? this.register(this.owners.indexOf(agent) + 1, name) : null;
  }

  // The agents that use a register, else all.
  readers() {
    const found = this.agents.filter((agent) => this.usedBy(agent).size > 0 || this.ownOf(agent).size > 0);
    return found.length ? found : this.agents;
  }
}

module.exports = { QUESTION, Scene };
