'use strict';
// Values as plain data, so that they go from one realm to another and are shown.

const { types } = require('./host.js');

const DEEPEST = 20;

class NoData extends Error {}

// {type, ..} of a value. `realm` tells blocks and views of shared memory.
function dataOf(value, realm, depth = 0) {
  const inner = (each) => dataOf(each, realm, depth + 1);
  if (depth > DEEPEST) throw new NoData('a value that is nested so deep');
  switch (typeof value) {
    case 'undefined': return { type: 'undefined' };
    case 'number': return { type: 'number', value: Object.is(value, -0) ? '-0' : String(value) };
    case 'bigint': return { type: 'bigint', value: String(value) };
    case 'string': case 'boolean': return { type: typeof value, value };
    case 'symbol': throw new NoData('a symbol');
    case 'function': throw new NoData('a function');
    default:
  }
  if (value === null) return { type: 'null' };
  const view = realm?.view(value);
  if (view) return { type: 'view', kind: view[Symbol.toStringTag], block: realm.numberOf(view.buffer), bytes: view.buffer.byteLength,
    offset: view.byteOffset, length: view.length };
  if (types.isSharedArrayBuffer(value)) return { type: 'block', block: realm.numberOf(value), bytes: value.byteLength };
  if (types.isProxy(value)) throw new NoData('a proxy');
  if (Array.isArray(value)) return { type: 'array', items: Array.from(value, inner) };
  if (types.isTypedArray(value)) return { type: 'array', items: Array.from(value, inner) };
  if (types.isMap(value)) return { type: 'map', items: [...value].flat().map(inner) };
  if (types.isSet(value)) return { type: 'set', items: [...value].map(inner) };
  if (types.isNativeError(value)) return { type: 'error', name: String(value.name), message: String(value.message) };
  if (types.isPromise(value) || types.isGeneratorObject(value)) throw new NoData('a promise or a generator');
  return { type: 'object', items: Object.entries(value).map(([name, each]) => [name, inner(each)]) };
}

// The value of data, made of what `global` has.
function valueOf(data, global, realm) {
  const inner = (each) => valueOf(each, global, realm);
  switch (data.type) {
    case 'undefined': return undefined;
    case 'null': return null;
    case 'number': return Number(data.value);
    case 'bigint': return BigInt(data.value);
    case 'array': return global.Array.from(data.items, inner);
    case 'map': {
      const made = new global.Map();
      for (let place = 0; place < data.items.length; place += 2) made.set(inner(data.items[place]), inner(data.items[place + 1]));
      return made;
    }
    case 'set': return new global.Set(data.items.map(inner));
    case 'error': return Object.assign(new global.Error(data.message), { name: data.name });
    case 'object': {
      const made = new global.Object();
      for (const [name, each] of data.items) Object.defineProperty(made, name,
        { value: inner(each), writable: true, enumerable: true, configurable: true });
      return made;
    }
    case 'block': return realm.block(data.block);
    case 'view': return realm.viewOf(data.kind, realm.block(data.block), data.offset, data.length);
    default: return data.value;
  }
}

// As one would write it.
function shown(data) {
  switch (data.type) {
    case 'undefined': case 'null': return data.type;
    case 'number': return data.value;
    case 'bigint': return `${data.value}n`;
    case 'array': return `[${data.items.map(shown).join(', ')}]`;
    case 'map': case 'set': return `${data.type === 'map' ? 'Map' : 'Set'} [${data.items.map(shown).join(', ')}]`;
    case 'error': return `${data.name}: ${data.message}`;
    case 'object': return data.items.length ? `{ ${data.items.map(([name, each]) => (
      `${/^[A-Za-z_$][\w$]*$/.test(name) ? name : JSON.stringify(name)}: ${shown(each)}`)).join(', ')} }` : '{}';
    case 'block': return `SharedArrayBuffer(${data.bytes})`;
    case 'view': return `${data.kind}(${data.length})`;
    default: return JSON.stringify(data.value);
  }
}

// The blocks of shared memory in data: [number, bytes].
function blocksIn(data) {
  if (data.type === 'view' || data.type === 'block') return [[data.block, data.bytes]];
  const items = data.type === 'object' ? data.items.map(([, each]) => each) : data.items ?? [];
  return items.flatMap(blocksIn);
}

module.exports = { NoData, blocksIn, dataOf, shown, valueOf };
