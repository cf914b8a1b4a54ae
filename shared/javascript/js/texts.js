'use strict';
// Trees as litmus texts, split where one text would be past the program's limits, and the ways through the trees that the registers
// of an outcome tell.

const limits = require('../../limits.json');
const { Limit, Refusal, busiest } = require('./refusal.js');
const { tooManyReads } = require('./trees.js');

const MOST_TEXTS = 4000;

// A part of all ways: for some nodes the values with which this text goes on. All parts together have all ways.
class Part {
  constructor(taken = new Map()) {
    this.taken = taken;
  }

  kidsOf(node) {
    const taken = this.taken.get(node);
    return taken ? [...node.kids].filter(([value]) => taken.has(value)) : [...node.kids];
  }

  has(node, value) {
    return this.taken.get(node)?.has(value) ?? true;
  }

  // This part in two, or for each value of a choice.
  split(node) {
    const values = this.kidsOf(node).map(([value]) => value);
    const half = Math.ceil(values.length / 2);
    return [values.slice(0, half), values.slice(half)].map((some) => new Part(new Map(this.taken).set(node, new Set(some))));
  }
}

// The code of an agent in a part: a list of accesses {line, event, ways} and branches {register, number, body, other}.
class Writer {
  constructor(layout, wakes, tree, part) {
    Object.assign(this, { layout, wakes, tree, part, registers: 0, modifies: null, undecided: null, last: null });
  }

  need(register, event) {
    if (register >= this.registers) {
      this.registers = register + 1;
      this.last = event;
    }
    return `r${register}`;
  }

  code(node, register = 0) {
    if (!node || node.leaf) return [];
    const { event } = node;
    if (this.wakes.isBeyond(event, this.tree.name)) return [];
    if (event.op === 'choice') return this.choice(node, register);
    if (!node.kids) {
      const rest = this.code(node.next, register);
      return this.layout.isLeftOut(event) ? rest : [this.access(event, this.layout.code(event, 'store', [event.value])), ...rest];
    }
    return event.op === 'modify' ? this.modify(node, register) : this.read(node, register);
  }

  access(event, line, ways = 1) {
    return { event, line, ways };
  }

  choice(node, register) {
    const kids = this.part.kidsOf(node);
    if (kids.length > 1) {
      this.undecided ??= node;
      return [];
    }
    return this.code(kids[0][1], register);
  }

  // A compareExchange that is never followed by what comes of its success is a load, and one of which nothing else is followed an
  // exchange: an outcome that shows the other is of no way of this part.
  read(node, register) {
    const { event } = node;
    const r = this.need(register, event);
    const values = this.part.kidsOf(node).map(([value]) => value);
    const methods = { exchange: ['exchange', [event.value]], cas: ['compareExchange', [event.expected, event.value]] };
    let [method, words] = methods[event.op] ?? ['load', []];
    if (event.op === 'cas' && !values.includes(event.expected)) [method, words] = ['load', []];
    else if (event.op === 'cas' && values.length === 1 && this.part.taken.has(node)) [method, words] = ['exchange', [event.value]];
    const line = `${r} = ${this.layout.code(event, method, words)}`;
    return [this.access(event, line, method === 'compareExchange' ? 2 : 1), ...this.branches(node, register)];
  }

  branches(node, register) {
    const kids = this.part.kidsOf(node).map(([value, kid]) => ({ value, code: this.code(kid, register + 1) }));
    const isWhole = kids.length === node.kids.size;
    if (isWhole && new Set(kids.map(({ code }) => linesOf(code).join('\n'))).size === 1) return kids[0].code;
    return this.chain(kids.filter(({ code }) => code.length > 0), node.event, register);
  }

  // if .. else if .. ; a value that isn't among them stops.
  chain(kids, event, register) {
    return kids.reduceRight((other, { value, code }) =>
      [{ register: `r${register}`, number: this.layout.number(event, value), body: code, other }], []);
  }

  // A read-modify-write whose new value hangs on the old one: where one old value is followed, an exchange; else a load, and for each
  // value a compareExchange right behind it. Ways on which it fails are dropped.
  modify(node, register) {
    const { event } = node;
    const kids = this.part.kidsOf(node);
    const r = this.need(register, event);
    if (kids.length < 2) {
      const values = kids.map(([value]) => event.next(value));
      const line = `${r} = ${this.layout.code(event, kids.length ? 'exchange' : 'load', values)}`;
      return [this.access(event, line), ...this.branches(node, register)];
    }
    this.modifies ??= node;
    const s = this.need(register + 1, event);
    const made = kids.map(([value, kid]) => {
      const line = `${s} = ${this.layout.code(event, 'compareExchange', [value, event.next(value)])}`;
      const rest = this.code(kid, register + 2);
      return { value, code: [this.access(event, line, 2),
        ...(rest.length ? this.chain([{ value, code: rest }], event, register + 1) : [])] };
    });
    return [this.access(event, `${r} = ${this.layout.code(event, 'load')}`), ...this.chain(made, event, register)];
  }
}

const linesOf = (code) => code.flatMap((item) => (item.line ? [item.line]
  : [`if ${item.register} == ${item.number} {`, ...linesOf(item.body), ...(item.other.length ? ['} else {', ...linesOf(item.other)] : []),
    '}']));

// How many paths the program counts, how deep the ifs are nested, and how many accesses the longest path has, with its events.
function measure(code) {
  const made = { paths: 1, depth: 0, accesses: 0, events: [] };
  for (const item of code) {
    if (item.line) {
      made.paths *= item.ways;
      made.accesses += 1;
      made.events.push(item.event);
    } else {
      const [body, other] = [measure(item.body), measure(item.other)];
      made.paths *= body.paths + other.paths;
      made.depth = Math.max(made.depth, 1 + Math.max(body.depth, other.depth));
      const longer = body.accesses > other.accesses ? body : other;
      made.accesses += longer.accesses;
      made.events.push(...longer.events);
    }
  }
  return made;
}

// How often an agent may be woken: no more often than the others notify.
class Wakes {
  constructor(list) {
    Object.assign(this, { list, counts: new Map() });
  }

  isBeyond({ op, first, turn }, name) {
    if (op !== 'wake') return false;
    const key = `${first} ${name}`;
    if (!this.counts.has(key)) this.counts.set(key,
      this.list.filter((tree) => tree.name !== name).reduce((sum, { root }) => sum + this.most(root, first), 0));
    return turn > this.counts.get(key);
  }

  most(node, cell) {
    if (!node || node.leaf) return 0;
    const here = node.event.notifies !== undefined && node.event.first === cell ? node.event.notifies : 0;
    return here + (node.kids ? Math.max(0, ...[...node.kids.values()].map((kid) => this.most(kid, cell))) : this.most(node.next, cell));
  }
}

// The node nearest the root with several values that are followed.
function widest(root, part) {
  const nodes = [root];
  while (nodes.length) {
    const node = nodes.shift();
    if (!node || node.leaf) continue;
    if (!node.kids) nodes.push(node.next);
    else {
      const kids = part.kidsOf(node);
      if (kids.length > 1) return node;
      nodes.push(...kids.map(([, kid]) => kid));
    }
  }
  return null;
}

// The accesses on the longest way of a tree that are in a text.
function longest(node, isIn) {
  if (!node || node.leaf) return [];
  const kids = node.kids ? [...node.kids.values()] : [node.next];
  const rest = kids.map((kid) => longest(kid, isIn)).reduce((most, each) => (each.length > most.length ? each : most), []);
  return isIn(node.event) ? [node.event, ...rest] : rest;
}

function tooLong(list, measures) {
  const each = measures.map(({ accesses }, place) => `${list[place].name} ${accesses}`).join(', ');
  const { at, times } = busiest(measures.flatMap(({ events }) => events));
  return new Limit(`the agents make more than ${limits.accesses} accesses together (${each}), this line ${times} of them: `
    + 'take fewer agents, turns or accesses', at);
}

// Some text has the longest ways of all agents: where these are too long it isn't begun.
function seeAccesses({ list }, layout) {
  const wakes = new Wakes(list);
  const measures = list.map(({ root, name }) => {
    const events = longest(root, (event) => event.op !== 'choice' && !layout.isLeftOut(event) && !wakes.isBeyond(event, name));
    return { accesses: events.length, events };
  });
  if (measures.reduce((sum, { accesses }) => sum + accesses, 0) > limits.accesses) throw tooLong(list, measures);
}

class Texts {
  constructor(name, trees, layout) {
    Object.assign(this, { name, trees, layout, wakes: new Wakes(trees.list), made: [] });
    const { length } = trees.list;
    const { agents: most } = limits;
    const at = trees.list[most]?.role?.at ?? null;
    if (length > most) throw new Refusal(`${length} agents are started, and ${most} are followed: start fewer`, at);
    this.split(new Part());
  }

  // The texts of a part.
  split(part) {
    if (this.made.length > MOST_TEXTS) throw new Limit(
      `the agents go so many ways together that more than ${MOST_TEXTS} texts would be asked: take fewer agents, turns or accesses`);
    const writers = this.trees.list.map((tree) => new Writer(this.layout, this.wakes, tree, part));
    const codes = writers.map((writer, place) => writer.code(this.trees.list[place].root));
    const undecided = writers.find((writer) => writer.undecided)?.undecided;
    const text = undecided ? '' : this.text(codes);
    const node = undecided ?? this.past(writers, codes.map(measure), text, part);
    if (node) part.split(node).forEach((half) => this.split(half));
    else this.made.push({ part, text });
  }

  // A node to split at where the text is past a limit; none where it isn't, and a refusal where nothing can be split.
  past(writers, measures, text, part) {
    const { list } = this.trees;
    const find = (place) => writers[place].modifies ?? widest(list[place].root, part);
    const worst = (of) => measures.map((_, place) => place).sort((a, b) => of(b) - of(a));
    const first = (places) => places.map((place) => widest(list[place].root, part)).find(Boolean);
    for (const [place, writer] of writers.entries()) {
      if (writer.registers > limits.registers) {
        if (writer.modifies) return writer.modifies;
        throw tooManyReads(list[place].name, writer.last.at);
      }
      if (measures[place].depth > limits.ifs) return find(place);
    }
    if (measures.reduce((sum, { accesses }) => sum + accesses, 0) > limits.accesses) {
      const node = writers.find((writer) => writer.modifies)?.modifies ?? first(worst(({ accesses }) => accesses));
      if (node) return node;
      throw tooLong(list, measures);
    }
    if (measures.reduce((all, { paths }) => all * paths, 1) > limits.combinations
      || text.length > limits.text) return first(worst((place) => measures[place].paths));
    return null;
  }

  text(codes) {
    const lines = [`test ${this.name}`, `bytes ${this.layout.bytes}`];
    let asked = null;
    codes.forEach((code, place) => {
      const { name } = this.trees.list[place];
      const made = linesOf(code);
      const register = made.map((line) => /^(r\d) = /.exec(line)).find(Boolean)?.[1];
      if (register) asked ??= `${name}.${register}`;
      lines.push(`agent ${name}`, ...made);
    });
    if (asked === null) return '';
    return `${[...lines, `check ${asked} == 0`].join('\n')}\n`;
  }
}

// The way through a tree that the registers of an outcome tell: {leaf, notified}, {unknown: the values up to one that no kid has} or
// {isStuck} where nobody wakes the agent; null where it is of another part, or dropped.
function walk(tree, layout, wakes, part, registers) {
  const values = [];
  const notified = new Map();
  let place = 0;
  const next = (event) => layout.value(event, registers[place++] ?? 0);
  for (let node = tree.root; ;) {
    if (node.leaf) return { leaf: node.leaf, notified, values };
    const { event, kids } = node;
    if (wakes.isBeyond(event, tree.name)) return { isStuck: true };
    if (!kids) {
      if (event.notifies !== undefined) notified.set(event.first, (notified.get(event.first) ?? 0) + event.notifies);
      node = node.next;
      continue;
    }
    const got = event.op === 'choice' ? part.kidsOf(node)[0][0] : next(event);
    values.push(got);
    if (!kids.has(got)) return { unknown: values };
    if (!part.has(node, got)) return null;
    if (event.op === 'modify' && part.kidsOf(node).length > 1 && next(event) !== got) return null;
    node = kids.get(got);
  }
}

module.exports = { Part, Texts, Writer, linesOf, seeAccesses, walk };
