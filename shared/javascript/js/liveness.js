'use strict';
// Variables that are dead at the head of a loop: each turn assigns them before it reads them, whatever way it goes, and so does
// what comes after the loop. A variable is taken for alive wherever that isn't plain from the syntax.

const { FUNCTIONS, LOOPS, childrenOf, contains, walk } = require('./scopes.js');

// A way through a loop, in the order of evaluation: `assigned` are the names that every way up to here has assigned, and `alive`
// collects those that may be read, or left behind, before that.
class Way {
  constructor(candidates, isHeadFirst) {
    Object.assign(this, { candidates, isHeadFirst, alive: new Set(), assigned: new Set(), within: 0 });
  }

  read(name) {
    if (!this.assigned.has(name)) this.alive.add(name);
  }

  // What may be left out: what it assigns doesn't count.
  perhaps(act) {
    const before = this.assigned;
    this.assigned = new Set(before);
    act();
    const after = this.assigned;
    this.assigned = before;
    return after;
  }

  // The way goes on elsewhere: what isn't assigned here may be read there.
  leave() {
    for (const name of this.candidates) this.read(name);
  }

  list(nodes) {
    for (const node of nodes) if (node) this.go(node);
  }

  go(node) {
    if (FUNCTIONS.has(node.type)) return;   // it reads nothing before it is called, and then only what is never taken for dead
    const act = Way.ACTS[node.type];
    if (act) act(this, node);
    else this.list(childrenOf(node));
  }

  // One of two; a way that ends doesn't come to what follows both.
  either(first, second) {
    const one = this.perhaps(() => first && this.go(first));
    const other = this.perhaps(() => second && this.go(second));
    const ends = (node) => node
      && (node.type === 'BlockStatement' ? node.body.some(ends) : /^(Return|Throw|Break|Continue)Statement$/.test(node.type));
    if (ends(first)) this.assigned = other;
    else if (ends(second)) this.assigned = one;
    else this.assigned = new Set([...one].filter((name) => other.has(name)));
  }

  inner(node) {
    this.within += 1;
    if (node.type === 'DoWhileStatement') this.perhaps(() => this.list([node.body, node.test]));
    else {
      if (node.init) this.go(node.init);
      if (node.test && !contains(node.body, ['BreakStatement', 'ContinueStatement'])) this.go(node.test);
      this.perhaps(() => this.list([node.left, node.right, node.test, node.body, node.update]));
    }
    this.within -= 1;
  }
}

Way.ACTS = {
  Identifier: (way, node) => way.read(node.name),
  MemberExpression: (way, node) => way.list([node.object, node.computed ? node.property : null]),
  Property: (way, node) => way.list([node.computed ? node.key : null, node.value]),
  AssignmentExpression(way, { left, operator, right }) {
    if (operator !== '=') {
      way.go(left);
      way.perhaps(() => way.go(right));
      return;
    }
    if (left.type === 'MemberExpression') way.go(left);
    way.go(right);
    if (left.type === 'Identifier') way.assigned.add(left.name);
    else if (left.type !== 'MemberExpression') way.pattern(left);
  },
  VariableDeclarator(way, { id, init }) {
    if (init) {
      way.go(init);
      if (id.type === 'Identifier') way.assigned.add(id.name);
      else way.pattern(id);
    }
  },
  LogicalExpression(way, { left, right }) {
    way.go(left);
    way.perhaps(() => way.go(right));
  },
  ChainExpression: (way, node) => way.perhaps(() => way.list(childrenOf(node))),
  IfStatement(way, { test, consequent, alternate }) {
    way.go(test);
    way.either(consequent, alternate);
  },
  SwitchStatement(way, { discriminant, cases }) {
    way.go(discriminant);
    way.within += 1;
    for (const each of cases) way.perhaps(() => way.list([each.test, ...each.consequent]));
    way.within -= 1;
  },
  BreakStatement(way, { label }) {
    if (label || way.within === 0) way.leave();
  },
  // The head comes next, but for a test or an update that stand before it.
  ContinueStatement(way, { label }) {
    if (label || (way.within === 0 && !way.isHeadFirst)) way.leave();
  },
  ReturnStatement: (way, { argument }) => argument && way.go(argument),
  LabeledStatement: (way, { body }) => way.go(body),
};
Way.ACTS.ConditionalExpression = Way.ACTS.IfStatement;
for (const type of LOOPS) Way.ACTS[type] = (way, node) => way.inner(node);

// The names in a pattern that is assigned: only where it has no defaults and no properties to work out.
Way.prototype.pattern = function pattern(node) {
  this.perhaps(() => walk.full(node, (each) => each.type === 'Identifier' && this.read(each.name)));
};

// The names, of those that the loop names, that are dead at its head. `owner` is the function, or program, that it stands in.
function deadAt(loop, owner, scopes) {
  const hasArguments = scopes.uses.some((use) => use.name === 'arguments' && use.declared?.outermost === owner);
  if (hasArguments || contains(owner.node, ['TryStatement', 'YieldExpression', 'AwaitExpression', 'WithStatement'])) return new Set();
  const local = [...scopes.freeIn(loop)].filter(([name, scope]) => scope !== null && isLocal(name, scope, owner, scopes))
    .map(([name]) => name);
  const way = new Way(local, loop.type === 'WhileStatement');
  const isBodyFirst = loop.type === 'DoWhileStatement';
  const isEndless = !isBodyFirst && (!loop.test || (loop.test.type === 'Literal' && Boolean(loop.test.value)));
  if (isBodyFirst) way.go(loop.body);
  if (!isEndless) {
    way.go(loop.test);
    way.leave();
  }
  if (!isBodyFirst) way.perhaps(() => way.list([loop.body, loop.update]));
  return new Set(local.filter((name) => !way.alive.has(name)));
}

// Whether a variable is declared once, in the function that the loop stands in, and no other function names it.
function isLocal(name, scope, owner, scopes) {
  const isWithin = (use) => use.node.start >= owner.node.start && use.node.end <= owner.node.end;
  const named = scopes.uses.filter((use) => use.name === name && (use.declared === scope || isWithin(use)));
  return scope.outermost === owner && named.every((use) => use.declared === scope && use.scope.outermost === owner);
}

module.exports = { deadAt };
