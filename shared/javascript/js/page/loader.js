'use strict';
// In the page's worker, as a function of all modules, each with its source and the places of those that it asks for: takes the port that
// leads to the page, leaves nothing of the browser in the worker but what ECMAScript has, and then loads the modules. The port stays here.

const KEPT = `AggregateError Array ArrayBuffer Atomics BigInt BigInt64Array BigUint64Array Boolean DataView Date Error EvalError
  FinalizationRegistry Float32Array Float64Array Function Int16Array Int32Array Int8Array Intl Iterator JSON Map Math Number Object Promise
  Proxy RangeError ReferenceError Reflect RegExp Set SharedArrayBuffer String Symbol SyntaxError TypeError URIError Uint16Array Uint32Array
  Uint8Array Uint8ClampedArray WeakMap WeakRef WeakSet WebAssembly decodeURI decodeURIComponent encodeURI encodeURIComponent escape
  isFinite isNaN parseFloat parseInt unescape`.split(/\s+/);
const JS = 'javascript/js';
const CONSTANTS = ['Infinity', 'NaN', 'undefined', 'eval', 'globalThis'];

const scope = globalThis;
// Browsers hide this name of a page that others may share a process with.
const Block = scope.SharedArrayBuffer ?? new WebAssembly.Memory({ initial: 1, maximum: 1, shared: true }).buffer.constructor;

// What says and hears by a port, whatever becomes of the objects of this realm.
function channelOf(port) {
  const { apply } = Reflect;
  const { parse, stringify } = JSON;
  const post = port.postMessage.bind(port);
  const dataOf = Reflect.getOwnPropertyDescriptor(MessageEvent.prototype, 'data').get;
  return {
    say: (told) => post(stringify(told)),
    listen: (take) => { port.onmessage = (event) => take(parse(apply(dataOf, event, []))); },
  };
}

// Takes away what isn't ECMAScript's, from the global object and from what it inherits.
function close() {
  for (let object = scope; object && object !== Object.prototype; object = Reflect.getPrototypeOf(object)) {
    for (const name of Reflect.ownKeys(object)) {
      const isKept = object === scope && (KEPT.includes(name) || CONSTANTS.includes(name));
      if (!isKept) Reflect.deleteProperty(object, name);
    }
  }
  Object.defineProperty(scope, 'SharedArrayBuffer', { value: Block, writable: true, configurable: true });
}

// Modules as Node has them; a package goes by its name. Each has the objects of ECMAScript as they were first, whatever stands in the
// global ones later.
function loaderOf(sources) {
  const modules = new Map();
  const names = KEPT.filter((name) => name in scope);
  const values = names.map((name) => scope[name]);
  const Made = Function;
  const load = (place) => {
    if (modules.has(place)) return modules.get(place).exports;
    const module = { exports: {} };
    modules.set(place, module);
    const { source, places } = sources[place];
    if (place.endsWith('.json')) module.exports = JSON.parse(source);
    else new Made('require', 'module', 'exports', ...names, `${source}\n//# sourceURL=jslit:${place}`)(
      (name) => load(places[name] ?? name), module, module.exports, ...values);
    return module.exports;
  };
  return load;
}

scope.onmessage = ({ ports: [port] }) => {
  const channel = channelOf(port);
  close();
  const load = loaderOf(sources);
  load(`${JS}/page/host.js`).begin(channel, sources[`${JS}/memory.js`].source);
  load(`${JS}/page/worker.js`).begin(channel);
};
