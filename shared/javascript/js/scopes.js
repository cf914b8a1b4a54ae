'use strict';
// Which variables a piece of code names, and where they are declared.

const { walk } = require('./parse.js');

const FUNCTIONS = new Set(['FunctionDeclaration', 'FunctionExpression', 'ArrowFunctionExpression']);
const CLASSES = new Set(['ClassDeclaration', 'ClassExpression']);
const LOOPS = new Set(['WhileStatement', 'DoWhileStatement', 'ForStatement', 'ForOfStatement', 'ForInStatement']);

// The names that a pattern binds.
function namesIn(pattern) {
  switch (pattern?.type) {
    case 'Identifier': return [pattern.name];
    case 'ObjectPattern': return pattern.properties.flatMap((each) => namesIn(each.value ?? each.argument));
    case 'ArrayPattern': return pattern.elements.flatMap(namesIn);
    case 'AssignmentPattern': return namesIn(pattern.left);
    case 'RestElement': return namesIn(pattern.argument);
    default: return [];
  }
}

// Whether a node has one of these types in it.
function contains(node, types) {
  let found = false;
  walk.full(node, (each) => { found ||= types.includes(each.type); });
  return found;
}

const childrenOf = (node) => Object.values(node).flat().filter((child) => child && typeof child.type === 'string');

class Scope {
  constructor(node, above) {
    Object.assign(this, { node, above, names: new Set() });
  }

  // The scope that a `var` here belongs to.
  get outermost() {
    return FUNCTIONS.has(this.node.type) || this.node.type === 'Program' || this.node.type === 'StaticBlock' ? this : this.above.outermost;
  }

  find(name) {
    return this.names.has(name) ? this : this.above?.find(name) ?? null;
  }
}

// The scope of each node that has one, and each use of a name: {name, node, scope (in which it stands), writes}.
class Scopes {
  constructor(tree) {
    this.of = new Map();
    this.uses = [];
    this.enter(tree, null);
    this.uses.forEach((use) => { use.declared = use.scope.find(use.name); });
  }

  declare(scope, names) {
    for (const name of names) scope.names.add(name);
  }

  begin(node, above) {
    const scope = new Scope(node, above);
    this.of.set(node, scope);
    return scope;
  }

  enter(node, above) {
    let scope = above;
    if (node.type === 'Program' || node.type === 'StaticBlock') scope = this.begin(node, above);
    else if (FUNCTIONS.has(node.type)) {
      if (node.type === 'FunctionDeclaration' && node.id) this.declare(above, [node.id.name]);
      scope = this.begin(node, above);
      if (node.type === 'FunctionExpression' && node.id) this.declare(scope, [node.id.name]);
      this.declare(scope, node.params.flatMap(namesIn));
      if (node.type !== 'ArrowFunctionExpression') this.declare(scope, ['arguments']);
    } else if (CLASSES.has(node.type)) {
      if (node.type === 'ClassDeclaration' && node.id) this.declare(above, [node.id.name]);
      scope = this.begin(node, above);
      if (node.id) this.declare(scope, [node.id.name]);
    } else if (node.type === 'BlockStatement' || LOOPS.has(node.type) || node.type === 'SwitchStatement' || node.type === 'CatchClause') {
      scope = this.begin(node, above);
      if (node.type === 'CatchClause') this.declare(scope, namesIn(node.param));
    } else if (node.type === 'VariableDeclaration') {
      this.declare(node.kind === 'var' ? scope.outermost : scope, node.declarations.flatMap((each) => namesIn(each.id)));
    } else if (/^Import.*Specifier$/.test(node.type)) this.declare(scope, [node.local.name]);
    this.visit(node, scope);
  }

  visit(node, scope) {
    if (node.type === 'Identifier') this.uses.push({ name: node.name, node, scope });
    for (const child of childrenOf(node)) if (!isPlainName(node, child)) this.enter(child, scope);
  }

  // The variables that a piece of code names and that are declared outside of it, or nowhere.
  freeIn(node) {
    const found = new Map();
    for (const use of this.uses) {
      if (use.node.start >= node.start && use.node.end <= node.end) {
        const scope = use.declared;
        if (scope === null || !(scope.node.start >= node.start && scope.node.end <= node.end)) found.set(use.name, scope);
      }
    }
    return found;
  }
}

// Names that are no variables: of properties, labels, and what is imported or exported by name.
function isPlainName(parent, child) {
  if (parent.type === 'MemberExpression') return child === parent.property && !parent.computed;
  if (parent.type === 'Property' && parent.shorthand) return child === parent.key && child !== parent.value;
  if (['Property', 'MethodDefinition', 'PropertyDefinition'].includes(parent.type)) return child === parent.key && !parent.computed;
  if (['LabeledStatement', 'BreakStatement', 'ContinueStatement'].includes(parent.type)) return child === parent.label;
  if (parent.type === 'ImportSpecifier') return child === parent.imported;
  return ['ExportSpecifier', 'MetaProperty'].includes(parent.type);
}

module.exports = { CLASSES, FUNCTIONS, LOOPS, Scopes, childrenOf, contains, namesIn, walk };
