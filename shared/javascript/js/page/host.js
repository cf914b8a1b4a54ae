'use strict';
// What `js/host.js` has of Node, of a worker of a browser. There is one realm, the worker's own: before each run what stands there is put
// back as it was. The page is told of what runs, and ends the worker where that takes long.

const realm = globalThis;
const evaluate = realm.eval;   // as a script of its own
const { defineProperty, deleteProperty, getOwnPropertyDescriptor, ownKeys } = Reflect;
const proxies = new WeakSet();
let say = null;
let source = null;     // of memory.js
let memory = null;     // what that made
let kept = null;       // objects with their properties as they were
let who = null;        // whose run is on

function begin(channel, text) {
  ({ say } = channel);
  source = text;
}

// Proxies are told from other objects by who makes them.
function tellProxies() {
  const made = (proxy) => {
    proxies.add(proxy);
    return proxy;
  };
  const revocable = (...given) => {
    const pair = Proxy.revocable(...given);
    made(pair.proxy);
    return pair;
  };
  realm.Proxy = new Proxy(Proxy, {
    construct: (Real, given, target) => made(Reflect.construct(Real, given, target)),
    get: (Real, name) => (name === 'revocable' ? revocable : Real[name]),
  });
}

function memoryIn(_, host) {
  if (memory === null) {
    tellProxies();
    memory = evaluate(`(function (host) {${source}\nreturn memory;})\n//# sourceURL=memory.js`)(host);
    kept = objectsOf().map((object) => [object, new Map(ownKeys(object).map((name) => [name, getOwnPropertyDescriptor(object, name)]))]);
  }
  return memory;
}

// The objects of the realm that code may change: the global one, constructors, prototypes, Math and its like.
function objectsOf() {
  const found = new Set([realm]);
  for (const name of ownKeys(realm)) {
    const { value } = getOwnPropertyDescriptor(realm, name);
    if ((typeof value !== 'object' || value === null) && typeof value !== 'function') continue;
    found.add(value);
    if (value.prototype) found.add(value.prototype);
  }
  const Typed = Object.getPrototypeOf(Int8Array);
  return [...found, Typed, Typed.prototype];
}

const isSame = (one, other) => one.value === other.value && one.get === other.get && one.set === other.set;

function enter(_, name = null) {
  who = name;
  for (const [object, properties] of kept ?? []) {
    for (const name of ownKeys(object)) if (!properties.has(name)) deleteProperty(object, name);
    for (const [name, property] of properties) {
      const now = getOwnPropertyDescriptor(object, name);
      if (!now || !isSame(now, property)) defineProperty(object, name, property);
    }
  }
}

class Script {
  constructor(code, { filename = 'script', lineOffset = 0 } = {}) {
    new Function(code.replace(/^#!/, '//'));   // it throws what is wrong with the syntax
    this.code = `${'\n'.repeat(lineOffset)}${code}\n//# sourceURL=${filename}`;
  }

  runInContext(_, { timeout = null } = {}) {
    if (timeout !== null) say({ runs: timeout, who });
    try {
      return evaluate(this.code);
    } finally {
      if (timeout !== null) say({ runs: null });
    }
  }
}

// Whether errors tell where code stands, as V8's do.
function tellsPlaces() {
  try {
    return new Script('throw new Error()', { filename: 'user:place.js' }).runInContext();
  } catch (error) {
    return /user:place\.js:1:7/.test(error.stack);
  }
}

const vm = {
  Script,
  createContext: () => enter(),
  runInContext: (code, context, options) => new Script(code).runInContext(context, options),
};

// Whether a method of one kind of object takes this one.
const takes = (method, ...given) => (value) => {
  try {
    Reflect.apply(method, value, given);
    return true;
  } catch {
    return false;
  }
};
const getter = (object, name) => getOwnPropertyDescriptor(object, name).get;
const isObject = (value) => (typeof value === 'object' && value !== null) || typeof value === 'function';
const ofKind = (...kinds) => {
  const { toString } = Object.prototype;
  return (value) => isObject(value) && !proxies.has(value) && kinds.includes(Reflect.apply(toString, value, []));
};
const isArrayBuffer = takes(getter(ArrayBuffer.prototype, 'byteLength'));
const isSharedArrayBuffer = takes(getter(SharedArrayBuffer.prototype, 'byteLength'));
const BOXED = [Number, String, Boolean, Symbol, BigInt].map(({ prototype }) => takes(prototype.valueOf));
const viewName = getter(Object.getPrototypeOf(Int8Array.prototype), Symbol.toStringTag);

const types = {
  isProxy: (value) => isObject(value) && proxies.has(value),
  isMap: takes(getter(Map.prototype, 'size')),
  isSet: takes(getter(Set.prototype, 'size')),
  isWeakMap: takes(WeakMap.prototype.has, {}),
  isWeakSet: takes(WeakSet.prototype.has, {}),
  isDate: takes(Date.prototype.getTime),
  isSharedArrayBuffer,
  isAnyArrayBuffer: (value) => isArrayBuffer(value) || isSharedArrayBuffer(value),
  isTypedArray: (value) => isObject(value) && !proxies.has(value) && Reflect.apply(viewName, value, []) !== undefined,
  isBoxedPrimitive: (value) => isObject(value) && BOXED.some((is) => is(value)),
  isPromise: ofKind('[object Promise]'),
  isNativeError: ofKind('[object Error]'),
  isGeneratorObject: ofKind('[object Generator]', '[object AsyncGenerator]'),
  isMapIterator: ofKind('[object Map Iterator]'),
  isSetIterator: ofKind('[object Set Iterator]'),
  isModuleNamespaceObject: ofKind('[object Module]'),
  isExternal: () => false,
};

module.exports = { begin, enter, memoryIn, tellsPlaces, types, vm };
