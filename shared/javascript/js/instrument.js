'use strict';
// A file's code with marks: heads of loops tell the state that a turn leaves behind, functions and classes how what they close
// over is looked at. Lines stay as they are. What no run could tell is refused here.

const { CLASSES, FUNCTIONS, LOOPS, Scopes, contains, namesIn, walk } = require('./scopes.js');
const { deadAt } = require('./liveness.js');
const { parse } = require('./parse.js');
const { Refusal } = require('./refusal.js');
const { GLOBALS } = require('./state.js');

const MODULES = /^(node:)?(worker_threads|assert|assert\/strict)$/;
const KNOWN = new Set([...GLOBALS, ...`undefined NaN Infinity self isNaN isFinite parseInt parseFloat encodeURIComponent decodeURIComponent
  encodeURI decodeURI Iterator Worker postMessage onmessage addEventListener require module exports __filename __dirname console assert
  agents $262 performance setTimeout setInterval setImmediate requestAnimationFrame process arguments crypto structuredClone close
  queueMicrotask URL eval print fetch importScripts XMLHttpRequest WebSocket EventSource`.split(/\s+/)]);

const REFUSED = {
  AwaitExpression: '`await` isn\'t followed: write what comes after it as a function of its own, an agent or a part of one',
  ImportExpression: '`import()` isn\'t followed: put the code into this file',
  WithStatement: '`with` isn\'t followed: name the object',
};
const ASYNC = 'asynchronous functions aren\'t followed: write what comes after an `await` as a function of its own';

// Edits of a text: each puts a text at a place; of those at one place the closing ones come first, then the outer ones.
class Edits {
  constructor() {
    this.list = [];
  }

  put(place, text, rank = 0) {
    this.list.push({ place, text, rank, number: this.list.length });
  }

  around(node, before, after, size = node.end - node.start) {
    this.put(node.start, before, 1e9 - size);
    this.put(node.end, after, size - 1e9);
  }

  made(source) {
    this.list.sort((a, b) => a.place - b.place || a.rank - b.rank || a.number - b.number);
    let code = '';
    let at = 0;
    for (const { place, text } of this.list) {
      code += source.slice(at, place) + text;
      at = place;
    }
    return code + source.slice(at);
  }
}

const getters = (names) => `()=>[${names.map((name) => `()=>${name}`).join()}]`;

class Marks {
  constructor(source, tree, file) {
    Object.assign(this, { source, tree, file, edits: new Edits(), scopes: new Scopes(tree), loops: 0 });
  }

  // What a piece of code closes over.
  closed(node) {
    return getters([...this.scopes.freeIn(node)].filter(([name, scope]) => scope !== null && name !== 'arguments').map(([name]) => name));
  }

  all() {
    walk.fullAncestor(this.tree, (node, ancestors) => {
      const parent = ancestors[ancestors.length - 2];
      if (LOOPS.has(node.type) && node.type !== 'ForOfStatement' && node.type !== 'ForInStatement') this.loop(node, ancestors);
      else if (node.type === 'FunctionDeclaration') this.declaration(node, ancestors);
      else if (FUNCTIONS.has(node.type)) this.expression(node, parent);
      else if (node.type === 'ObjectExpression' && node.properties.some((each) => isMethod(each, each.value))) {
        this.edits.around(node, '__methods(', `,${this.closed(node)})`);
      } else if (CLASSES.has(node.type)) this.class(node);
      else if (node.type === 'MetaProperty' && node.meta.name === 'import') {
        this.edits.put(node.start, '({url:__filename})/*', -3e8);
        this.edits.put(node.end, '*/', -2e8);
      }
    });
  }

  // `parent` gives a function without a name its own.
  expression(node, parent) {
    if (parent.type === 'MethodDefinition' || isMethod(parent, node)) return;   // its class or object tells of it
    const names = { VariableDeclarator: parent.id, AssignmentExpression: parent.left, AssignmentPattern: parent.left,
      Property: parent.computed ? null : parent.key };
    const isNamed = node.type === 'FunctionExpression' && node.id;
    const named = !isNamed && ['Identifier', 'Literal'].includes(names[parent.type]?.type) ? names[parent.type] : null;
    const name = named ? JSON.stringify(String(named.name ?? named.value)) : 'null';
    this.edits.around(node, '__function(', `,${this.closed(node)},${name})`);
  }

  // A declared function is there from the beginning of its block on.
  declaration(node, ancestors) {
    const place = ancestors[ancestors.length - 2];
    const holder = /^Export/.test(place.type) ? ancestors[ancestors.length - 3] : place;
    const body = holder.body;
    if (!Array.isArray(body) || !node.id) return;
    const first = body.find((each) => !each.directive && each.type !== 'ImportDeclaration');
    this.edits.put(first.start, `__function(${node.id.name},${this.closed(node)},null);`, -5e8);
  }

  class(node) {
    const hidden = node.body.body.filter((each) => each.key?.type === 'PrivateIdentifier' && !each.static).map((each) => each.key.name);
    const read = [...new Set(hidden)].map((name) => `#${name} in o?[${isReadable(node, name) ? `o.#${name}` : '0'}]:[]`).join();
    this.edits.put(node.body.end - 1, `;static{__class(this,${this.closed(node)},o=>[${read}])}`, -6e8);
  }

  loop(node, ancestors) {
    const ownerNode = [...ancestors].reverse().slice(1)
      .find((each) => FUNCTIONS.has(each.type) || each.type === 'Program' || each.type === 'StaticBlock');
    const dead = deadAt(node, this.scopes.of.get(ownerNode), this.scopes);
    const own = node.init?.type === 'VariableDeclaration' && node.init.kind !== 'var'
      ? node.init.declarations.flatMap((each) => namesIn(each.id)) : [];
    const names = [...this.scopes.freeIn(node)].filter(([name, scope]) => scope !== null && !dead.has(name)).map(([name]) => name);
    const state = getters([...new Set([...names, ...own]), ...(contains(node, ['ThisExpression', 'Super']) ? ['this'] : [])]);
    const id = `__loop${this.loops += 1}`;
    const head = `${id}(${state})`;
    const labels = [];
    for (let place = ancestors.length - 2; ancestors[place]?.type === 'LabeledStatement'; place -= 1) labels.push(ancestors[place]);
    const outer = labels.length ? labels[labels.length - 1] : node;
    this.edits.around(outer, `{const ${id}=__loop();`, '}', outer.end - outer.start + 0.5);
    if (node.type === 'DoWhileStatement') this.edits.around(node.body, `{${head};`, '}', node.body.end - node.body.start + 0.25);
    else if (node.test) this.edits.around(node.test, `(${head},`, ')', node.test.end - node.test.start + 0.25);
    else this.edits.put(this.source.indexOf(';', node.init ? node.init.end : node.start) + 1, `${head},true`);
  }

  // Imports of what there is become calls of `require`; exports are left out.
  modules() {
    for (const node of this.tree.body) {
      if (node.type === 'ImportDeclaration') this.imported(node);
      else if (/^Export/.test(node.type)) {
        if (node.source) throw this.refusal(node, 'exports from other files aren\'t followed: put the code into this file');
        const isKept = node.declaration && (node.type === 'ExportNamedDeclaration' || node.declaration.id);
        this.edits.put(node.start, '/*', -4e8);
        this.edits.put(isKept ? node.declaration.start : node.end, '*/', isKept ? -4e8 : 0);
      }
    }
  }

  imported(node) {
    if (!MODULES.test(node.source.value)) throw this.refusal(node,
      `\`${node.source.value}\` isn't read: put what the agents need of it into this file`);
    const named = node.specifiers.filter((each) => each.type === 'ImportSpecifier')
      .map((each) => `${each.imported.name}:${each.local.name}`);
    const whole = node.specifiers.find((each) => each.type !== 'ImportSpecifier');
    const wanted = `require(${JSON.stringify(node.source.value)})`;
    const made = [whole ? `const ${whole.local.name}=${wanted};` : '', named.length ? `const {${named}}=${wanted};` : ''].join('');
    this.edits.put(node.start, `${made}/*`, -4e8);
    this.edits.put(node.end, '*/', 0);
  }

  refusal(node, text) {
    return new Refusal(text, { file: this.file, line: node.loc.start.line });
  }

  // What can't be followed, by its syntax.
  check() {
    walk.fullAncestor(this.tree, (node, ancestors) => {
      if (Object.hasOwn(REFUSED, node.type)) throw this.refusal(node, REFUSED[node.type]);
      if (FUNCTIONS.has(node.type) && node.async) throw this.refusal(node, ASYNC);
      if (node.type === 'ForOfStatement' && node.await) throw this.refusal(node, REFUSED.AwaitExpression);
      if (node.type !== 'CallExpression') return;
      const { callee } = node;
      if (callee.type === 'Identifier' && callee.name === 'eval') throw this.refusal(node,
        '`eval` isn\'t followed: write its text in its place');
      if (callee.type === 'MemberExpression' && callee.object.name === 'Atomics' && callee.property.name === 'notify') {
        const parent = ancestors[ancestors.length - 2];
        const isUnused = parent.type === 'ExpressionStatement' || (parent.type === 'UnaryExpression' && parent.operator === 'void');
        if (!isUnused) throw this.refusal(node, 'how many agents `Atomics.notify` woke isn\'t followed: use it as a statement of its own');
      }
    });
  }

  // Names that are declared nowhere: those that are only called as statements are taken for outputs.
  undeclared() {
    const nowhere = this.scopes.uses.filter((use) => use.declared === null && !KNOWN.has(use.name));
    const called = new Set();
    walk.ancestor(this.tree, {
      ExpressionStatement({ expression }) {
        if (expression.type === 'CallExpression' && expression.callee.type === 'Identifier') called.add(expression.callee);
      },
    });
    const set = new Set();
    walk.full(this.tree, (node) => {
      if (node.type === 'AssignmentExpression') namesIn(node.left).forEach((name) => set.add(name));
    });
    const missing = nowhere.find((use) => !called.has(use.node) && !set.has(use.name));
    if (missing) {
      throw this.refusal(missing.node,
        `\`${missing.name}\` is declared nowhere: put in what the agents need of it, or a number in its place`);
    }
    return [...new Set(nowhere.map((use) => use.name))].filter((name) => !set.has(name));
  }
}

const isMethod = (parent, node) => parent.type === 'Property' && parent.value === node && (parent.method || parent.kind !== 'init')
  && FUNCTIONS.has(node?.type);

// A private field, or accessor without which reading would fail or call code: only fields are read.
const isReadable = (node, name) =>
  node.body.body.every((each) => each.key?.name !== name || each.key.type !== 'PrivateIdentifier' || each.type === 'PropertyDefinition');

function numbersIn(tree) {
  const numbers = new Set();
  walk.full(tree, (node) => {
    if (node.type === 'Literal' && (typeof node.value === 'number' || typeof node.value === 'bigint')) numbers.add(Number(node.value));
  });
  return [...numbers];
}

// How much of a node is its head.
const HEADS = {
  IfStatement: (node) => node.test, WhileStatement: (node) => node.test, SwitchStatement: (node) => node.discriminant,
  ForStatement: (node) => node.update ?? node.test ?? node.init, ForOfStatement: (node) => node.right, ForInStatement: (node) => node.right,
};
const WHOLE = new Set(['ExpressionStatement', 'VariableDeclaration', 'ReturnStatement', 'ThrowStatement', 'PropertyDefinition']);

// The range of the piece that a node is, where it has this place in it: [from, to], or null.
function pieceOf(node, place) {
  const isIn = (from, to) => from <= place && place <= to;
  if (WHOLE.has(node.type)) return isIn(node.start, node.end) ? [node.start, node.end] : null;
  if (node.type === 'DoWhileStatement') return isIn(node.body.end, node.end) ? [node.body.end, node.end] : null;
  const head = HEADS[node.type]?.(node);
  if (head) return isIn(node.start, head.end) ? [node.start, head.end, ')'] : null;
  const isBody = node.type === 'ArrowFunctionExpression' && node.body.type !== 'BlockStatement' && isIn(node.body.start, node.body.end);
  return isBody ? [node.body.start, node.body.end] : null;
}

// The piece of the user's code in which an access stands, by where the instrumented code stood: the statement, or the head of one.
class Excerpts {
  // `edits` are {place, text} in their order; `before` is how much stands in front of the code's first line.
  constructor(source, tree, edits, before) {
    Object.assign(this, { source, tree, edits, before, starts: [0] });
    for (let at = source.indexOf('\n'); at >= 0; at = source.indexOf('\n', at + 1)) this.starts.push(at + 1);
  }

  // The place in the source of a line and column of the instrumented code, both from 1.
  placeOf(line, column) {
    const start = this.starts[line - 1];
    const end = this.starts[line] ?? this.source.length + 1;
    let left = column - 1 - (line === 1 ? this.before : 0);
    let place = start;
    for (const edit of this.edits) {
      if (edit.place < start || edit.place >= end) continue;
      const plain = edit.place - place;
      if (left < plain) break;
      left = Math.max(0, left - plain - edit.text.length);
      place = edit.place;
    }
    return place + left;
  }

  // The text of the smallest piece there, on one line, or null.
  at(line, column) {
    const place = this.placeOf(line, column);
    let best = null;
    walk.full(this.tree, (node) => {
      const piece = pieceOf(node, place);
      if (piece && (best === null || piece[1] - piece[0] <= best[1] - best[0])) best = piece;
    });
    return best && (this.source.slice(best[0], best[1]) + (best[2] ?? '')).trim().replace(/\s+/g, ' ');
  }
}

// {code, numbers (literals), outputs (names of functions that are called for what they print), excerpts}.
function instrument(source, file) {
  const { tree, isModule } = parse(source, file);
  const marks = new Marks(source, tree, file);
  marks.check();
  const outputs = marks.undeclared();
  marks.all();
  if (isModule) marks.modules();
  const strict = isModule ? '"use strict";' : '';
  const code = strict + marks.edits.made(source);
  return { code, numbers: numbersIn(tree), outputs, excerpts: new Excerpts(source, tree, marks.edits.list, strict.length) };
}

module.exports = { instrument };
