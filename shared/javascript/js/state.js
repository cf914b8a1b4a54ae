'use strict';
// What a turn of a loop leaves behind: the state that its code can reach, as a text. Two states with one text are the same: the same
// objects with the same contents. What can't be looked into (an iterator, a promise, a proxy) is like nothing else.

const { types } = require('./host.js');

const MOST = 20000;   // values that are looked at
const { getTime } = Date.prototype;

const GLOBALS = `Object Function Array String Number Boolean Symbol Math JSON Map Set WeakMap WeakSet WeakRef Error TypeError RangeError
  SyntaxError ReferenceError EvalError URIError AggregateError Promise Proxy Reflect BigInt RegExp Atomics
  SharedArrayBuffer ArrayBuffer DataView Int8Array Uint8Array Uint8ClampedArray Int16Array Uint16Array Int32Array
  Uint32Array Float32Array Float64Array BigInt64Array BigUint64Array WebAssembly Date Intl globalThis`.split(/\s+/);

const OPAQUE = ['Proxy', 'GeneratorObject', 'MapIterator', 'SetIterator', 'BoxedPrimitive', 'WeakMap', 'WeakSet', 'Promise', 'External',
  'ModuleNamespaceObject'];

// What a function says of its calls at the moment: nothing that it keeps.
const isOfCalls = (object, name) => typeof object === 'function' && (name === 'arguments' || name === 'caller');

class Opaque extends Error {}

class States {
  // `realm` tells views of shared memory; `given` are objects that the host has made.
  constructor(global, realm, given) {
    Object.assign(this, { realm, global });
    this.numbers = new WeakMap();
    this.count = 0;
    this.closures = new WeakMap();   // a function: what gives the variables that it closes over
    this.hidden = [];                // what gives the private fields of an object
    this.fixed = new Set(given);     // objects of the realm and the host
    for (const name of GLOBALS) {
      const found = global[name];
      if (found === undefined) continue;
      this.fixed.add(found);
      if (found.prototype) this.fixed.add(found.prototype);
    }
    this.fixed.add(Object.getPrototypeOf(global.Int8Array));
    this.fixed.add(Object.getPrototypeOf(global.Int8Array.prototype));
    this.fixed.add(global);
    this.given = new Set(Object.getOwnPropertyNames(global));
  }

  numberOf(object) {
    if (!this.numbers.has(object)) this.numbers.set(object, this.count += 1);
    return this.numbers.get(object);
  }

  // The text of what these variables, and the global ones that the program made, hold; or null.
  textOf(variables) {
    const made = Object.getOwnPropertyNames(this.global).filter((name) => !this.given.has(name));
    try {
      const looking = new Looking(this);
      variables.forEach((get) => looking.variable(get));
      made.forEach((name) => looking.words.push(name) && looking.property(this.global, name));
      return looking.all();
    } catch (error) {
      if (error instanceof Opaque) return null;
      throw error;
    }
  }
}

class Looking {
  constructor(states) {
    Object.assign(this, { states, words: [], seen: new Set(), waiting: [] });
  }

  variable(get) {
    let value;
    try {
      value = get();
    } catch {
      this.words.push('unset');
      return;
    }
    this.value(value);
  }

  value(value) {
    if (this.words.length > MOST) throw new Opaque();
    if ((typeof value !== 'object' || value === null) && typeof value !== 'function') {
      this.words.push(typeof value === 'string' ? JSON.stringify(value) : Object.is(value, -0) ? '-0' : `${typeof value} ${String(value)}`);
      return;
    }
    this.words.push(`#${this.states.numberOf(value)}`);
    if (this.seen.has(value) || this.states.fixed.has(value)) return;
    this.seen.add(value);
    this.waiting.push(value);
  }

  property(object, name) {
    const { get, set, value } = Object.getOwnPropertyDescriptor(object, name) ?? {};
    this.words.push(typeof name === 'symbol' ? String(name) : name);
    this.value(value);
    this.value(get);
    this.value(set);
  }

  object(object) {
    const { states } = this;
    const view = states.realm.view(object);
    if (view !== undefined) {
      this.words.push(`view ${view.byteOffset} ${view.length}`);
      this.value(view.buffer);
      return;
    }
    if (OPAQUE.some((kind) => types[`is${kind}`](object))) throw new Opaque();
    if (typeof object === 'function') this.function(object);
    const above = Object.getPrototypeOf(object);
    if (/Iterator$|^Weak/.test(String(Object.getOwnPropertyDescriptor(above ?? {}, Symbol.toStringTag)?.value))) throw new Opaque();
    this.value(above);
    if (types.isMap(object)) for (const [key, value] of Map.prototype.entries.call(object)) this.value(key), this.value(value);
    if (types.isSet(object)) for (const value of Set.prototype.values.call(object)) this.value(value);
    if (types.isDate(object)) this.words.push(String(getTime.call(object)));
    if (types.isAnyArrayBuffer(object)) this.bytes(object);
    if (ArrayBuffer.isView(object)) this.value(object.buffer);
    else for (const name of Reflect.ownKeys(object)) if (!isOfCalls(object, name)) this.property(object, name);
    for (const read of states.hidden) read(object).forEach((value) => this.value(value));
  }

  // Bytes that aren't shared; those that are change by accesses alone.
  bytes(block) {
    if (types.isSharedArrayBuffer(block)) return;
    if (block.byteLength > MOST) throw new Opaque();
    this.words.push(new Uint8Array(block).join());
  }

  function(made) {
    const closed = this.states.closures.get(made);
    if (closed) closed().forEach((get) => this.variable(get));
    else if (!/\{\s*\[native code\]\s*\}\s*$/.test(Function.prototype.toString.call(made)) || /^bound /.test(made.name)) throw new Opaque();
  }

  all() {
    while (this.waiting.length) this.object(this.waiting.pop());
    return this.words.join('\n');
  }
}

module.exports = { GLOBALS, States };
