'use strict';
// Shared memory as an agent sees it. This is carried out in the agent's own realm, as the body of a function of `host`: it puts
// views, DataView and Atomics in place that tell each access of shared memory to `host.access` and get what it reads. What
// coercions, signs, ranges and errors mean is left to the engine: to real arrays over a block of the same length, and to arrays of
// one element.

// An access: {op, sc, noTear, block, first, size, value, expected, next, type, isBig}; `op` is read, write, exchange, cas or modify,
// `value` and what is read are the bytes as a number, lowest byte first, and `next` is what a modify makes of what it read. `type` is the
// type of array that shows them, and `isBig` says that a DataView has the highest byte first.
const Block = globalThis.SharedArrayBuffer;
const lengthOf = Object.getOwnPropertyDescriptor(Block.prototype, 'byteLength').get;
const Typed = Object.getPrototypeOf(Int8Array);
const views = new WeakMap();    // the proxy of a view of shared memory: its real array
const natives = new Map();      // a real constructor: its stand-in
const numbers = new WeakMap();  // a block: its number
const blocks = [];

const isBlock = (value) => {
  try {
    return lengthOf.call(value) >= 0;
  } catch {
    return false;
  }
};
const numberOf = (block) => {
  if (!numbers.has(block)) {
    numbers.set(block, blocks.length);
    blocks.push(block);
  }
  return numbers.get(block);
};
const nameOf = (array) => Reflect.get(Typed.prototype, Symbol.toStringTag, array);

const integer = (value) => Math.trunc(Number(value)) || 0;

// The bytes of a value as an array of this type stores it: numbers of at most four bytes, lowest first.
const bitsOf = (Real, value) => {
  const one = new Real(1);
  one[0] = value;
  const bytes = new DataView(one.buffer);
  const size = Real.BYTES_PER_ELEMENT;
  if (size === 8) return [bytes.getUint32(0, true), bytes.getUint32(4, true)];
  return [size === 4 ? bytes.getUint32(0, true) : size === 2 ? bytes.getUint16(0, true) : bytes.getUint8(0)];
};
const valueOf = (Real, bits) => {
  const bytes = new DataView(new ArrayBuffer(8));
  bits.forEach((word, place) => bytes.setUint32(4 * place, word, true));
  return new Real(bytes.buffer, 0, 1)[0];
};
const parts = (block, first, size, noTear, type, isBig = false) => (size === 8 ? [0, 4] : [0]).map((place) => (
  { sc: false, noTear: noTear && size < 8, block: numberOf(block), first: first + place, size: Math.min(size, 4), type, isBig }));
const plainRead = (...where) => parts(...where).map((at) => host.access({ op: 'read', ...at }));
const plainWrite = (bits, ...where) => parts(...where).forEach((at, place) => host.access({ op: 'write', ...at, value: bits[place] }));

// Element `index` of a view of shared memory.
const elementAt = (array, index) => {
  const Real = natives.get(nameOf(array)).Real;
  const size = Real.BYTES_PER_ELEMENT;
  const isWhole = /^(Int|Uint)(8|16|32)Array$/.test(Real.name);
  return { Real, size, where: [array.buffer, array.byteOffset + index * size, size, isWhole, Real.name] };
};
const read = (array, index) => {
  if (!host.isLive()) return array[index];
  const { Real, where } = elementAt(array, index);
  return valueOf(Real, plainRead(...where));
};
const write = (array, index, value) => {
  const { Real, where } = elementAt(array, index);
  const bits = bitsOf(Real, value);
  if (!(index >= 0 && index < array.length)) return;
  if (host.isLive()) plainWrite(bits, ...where);
  else array[index] = valueOf(Real, bits);
};

const isIndex = (name) => typeof name === 'string' && (name === '-0' || String(Number(name)) === name);
const isWithin = (array, name) => Number.isInteger(Number(name)) && !Object.is(Number(name), -0) && Number(name) >= 0
  && Number(name) < array.length;
const OWN = new Set(['length', 'byteLength', 'byteOffset', 'buffer', Symbol.toStringTag]);
const handler = {
  get(array, name, receiver) {
    if (isIndex(name)) return isWithin(array, name) ? read(array, Number(name)) : undefined;
    if (OWN.has(name)) return Reflect.get(array, name, array);
    if (Object.hasOwn(methods, name)) return methods[name];
    const found = Reflect.get(array, name, receiver);
    if (typeof found === 'function' && Typed.prototype[name] === found && name !== 'constructor') {
      return host.refuse(`\`${String(name)}\` of a view of shared memory isn't followed: write its loop out`);
    }
    return found;
  },
  set(array, name, value, receiver) {
    if (!isIndex(name)) return Reflect.set(array, name, value, views.has(receiver) ? array : receiver);
    write(array, isWithin(array, name) ? Number(name) : -1, value);
    return true;
  },
  getOwnPropertyDescriptor(array, name) {
    if (!isIndex(name) || !isWithin(array, name)) return Reflect.getOwnPropertyDescriptor(array, name);
    return { value: read(array, Number(name)), writable: true, enumerable: true, configurable: true };
  },
  defineProperty(array, name, described) {
    if (isIndex(name)) host.refuse('`defineProperty` of an element of shared memory isn\'t followed: assign it');
    return Reflect.defineProperty(array, name, described);
  },
};
const shared = (array) => {
  numberOf(array.buffer);
  const proxy = new Proxy(array, handler);
  views.set(proxy, array);
  return proxy;
};

const clamp = (value, length) => (value < 0 ? Math.max(0, length + value) : Math.min(value, length));
// Where a part of an array begins and ends, as these arguments say it.
const rangeOf = ({ length }, begin, end) => [clamp(integer(begin), length), end === undefined ? length : clamp(integer(end), length)];
const itself = (view) => views.get(view) ?? host.refuse('a method of a view of shared memory is called on something else');
const methods = {
  subarray(begin, end) {
    const array = itself(this);
    const [from, to] = rangeOf(array, begin, end);
    return new this.constructor(array.buffer, array.byteOffset + from * array.BYTES_PER_ELEMENT, Math.max(0, to - from));
  },
  fill(value, begin, end) {
    const array = itself(this);
    const { Real } = elementAt(array, 0);
    const made = /^Big/.test(Real.name) ? BigInt(value) : Number(value);
    const [from, to] = rangeOf(array, begin, end);
    for (let index = from; index < to; index += 1) write(array, index, made);
    return this;
  },
  set(source, place) {
    const array = itself(this);
    if (views.has(source)) host.refuse('`set` from another view of shared memory isn\'t followed: write its loop out');
    const from = integer(place);
    if (from < 0) throw new RangeError('offset is out of bounds');
    const given = Object(source);
    const length = Math.max(0, integer(given.length));
    if (from + length > array.length) throw new RangeError('offset is out of bounds');
    const { Real, where } = elementAt(array, from);
    // Of a typed array of the same type the bytes are copied, of anything else the elements.
    if (nameOf(given) !== Real.name || !host.isLive()) for (let index = 0; index < length; index += 1) write(array, from + index,
      given[index]);
    else {
      const bytes = new Uint8Array(given.buffer, given.byteOffset, given.byteLength).slice();
      bytes.forEach((value, index) => plainWrite([value], where[0], where[1] + index, 1, true));
    }
  },
};
// These only read, as those of Array do.
for (const name of ['at', 'entries', 'every', 'find', 'findIndex', 'findLast', 'findLastIndex', 'forEach', 'includes', 'indexOf', 'join',
  'keys', 'lastIndexOf', 'reduce', 'reduceRight', 'some', 'toString', 'values']) {
  const same = Array.prototype[name];
  if (same) methods[name] = { [name](...given) { return Reflect.apply(same, (itself(this), this), given); } }[name];
}
methods[Symbol.iterator] = methods.values;

const construct = (Real) => (_, given, target) => {
  const [first] = given;
  if (isBlock(first)) return shared(Reflect.construct(Real, given, target));
  if (views.has(first)) {
    if (host.isLive()) host.refuse('an array made of a view of shared memory isn\'t followed: write its loop out');
    return Reflect.construct(Real, [views.get(first)], target);
  }
  return Reflect.construct(Real, given, target);
};
const TYPES = ['Int8', 'Uint8', 'Uint8Clamped', 'Int16', 'Uint16', 'Int32', 'Uint32', 'Float32', 'Float64', 'BigInt64', 'BigUint64'];
const replace = (name, Stand, Real) => {
  Object.defineProperty(globalThis, name, { value: Stand, writable: true, configurable: true });
  Object.defineProperty(Real.prototype, 'constructor', { value: Stand, writable: true, configurable: true });
};
for (const type of TYPES) {
  const name = `${type}Array`;
  const Real = globalThis[name];
  const Stand = new Proxy(Real, { construct: construct(Real) });
  natives.set(name, { Real, Stand });
  replace(name, Stand, Real);
}
const isView = ArrayBuffer.isView;
ArrayBuffer.isView = { isView: (value) => views.has(value) || isView(value) }.isView;

replace('SharedArrayBuffer', new Proxy(Block, {
  construct(_, given, target) {
    if (given[1]?.maxByteLength !== undefined) host.refuse('a block that grows isn\'t followed: make it as long as it grows');
    const block = Reflect.construct(Block, given, target);
    numberOf(block);
    return block;
  },
}), Block);
Block.prototype.slice = { slice: () => host.refuse('`slice` of a shared block isn\'t followed: read its elements one by one') }.slice;
Block.prototype.grow = { grow: () => host.refuse('a block that grows isn\'t followed: make it as long as it grows') }.grow;

// DataView: the range is the engine's to check, by a read that tells nothing.
const index = (value) => {
  const whole = integer(value);
  if (whole < 0 || whole > Number.MAX_SAFE_INTEGER) throw new RangeError('Offset is outside the bounds of the DataView');
  return whole;
};
const turned = (bits, size) => {
  const bytes = new DataView(new ArrayBuffer(8));
  bits.forEach((word, place) => bytes.setUint32(4 * place, word, true));
  const list = [...new Uint8Array(bytes.buffer, 0, size)].reverse();
  list.forEach((byte, place) => bytes.setUint8(place, byte));
  return bits.map((_, place) =>
    (size < 4 ? list.reduce((sum, byte, at) => sum + byte * 256 ** at, 0) : bytes.getUint32(4 * place, true)));
};
const bufferOf = Object.getOwnPropertyDescriptor(DataView.prototype, 'buffer').get;
for (const type of TYPES) {
  const { Real } = natives.get(`${type}Array`);
  const size = Real.BYTES_PER_ELEMENT;
  const get = DataView.prototype[`get${type}`];
  const set = DataView.prototype[`set${type}`];
  if (!get) continue;
  const isFollowed = (view) => host.isLive() && isView(view) && isBlock(bufferOf.call(view));
  DataView.prototype[`get${type}`] = { [`get${type}`](at, little) {
    if (!isFollowed(this)) return get.call(this, at, little);
    const place = index(at);
    get.call(this, place);
    const bits = plainRead(this.buffer, this.byteOffset + place, size, false, Real.name, !little);
    return valueOf(Real, little ? bits : turned(bits, size));
  } }[`get${type}`];
  DataView.prototype[`set${type}`] = { [`set${type}`](at, value, little) {
    if (!isFollowed(this)) return set.call(this, at, value, little);
    const place = index(at);
    const bits = bitsOf(Real, value);
    get.call(this, place);
    return plainWrite(little ? bits : turned(bits, size), this.buffer, this.byteOffset + place, size, false, Real.name, !little);
  } }[`set${type}`];
}

// Atomics: the engine checks type and index, on the real array; arrays that aren't shared are left to it.
const real = { ...Object.fromEntries(Object.getOwnPropertyNames(Atomics).map((name) => [name, Atomics[name]])) };
const placeOf = (array, given, isWaited) => {
  if (isWaited && !/^(Int32|BigInt64)Array$/.test(nameOf(array))) real.wait(array, 0, 0, 0);
  real.load(array, 0 < array.length ? 0 : given);
  const place = index(given);
  real.load(array, place);
  const { Real, size, where } = elementAt(array, place);
  if (size === 8) host.refuse('Atomics on elements of 64 bits aren\'t followed: use an Int32Array if the values fit');
  return { Real, at: { sc: true, noTear: true, block: numberOf(where[0]), first: where[1], size, type: Real.name } };
};
const OPERATIONS = { add: (a, b) => a + b, sub: (a, b) => a - b, and: (a, b) => a & b, or: (a, b) => a | b, xor: (a, b) => a ^ b };
const followed = {
  load(array, place) {
    const { Real, at } = placeOf(array, place);
    return valueOf(Real, [host.access({ op: 'read', ...at })]);
  },
  store(array, place, value) {
    const { Real, at } = placeOf(array, place);
    const made = integer(value);
    host.access({ op: 'write', ...at, value: bitsOf(Real, made)[0] });
    return made;
  },
  exchange(array, place, value) {
    const { Real, at } = placeOf(array, place);
    return valueOf(Real, [host.access({ op: 'exchange', ...at, value: bitsOf(Real, integer(value))[0] })]);
  },
  compareExchange(array, place, expected, value) {
    const { Real, at } = placeOf(array, place);
    const [wanted] = bitsOf(Real, integer(expected));
    return valueOf(Real, [host.access({ op: 'cas', ...at, expected: wanted, value: bitsOf(Real, integer(value))[0] })]);
  },
  wait(array, place, value, timeout) {
    const { Real, at } = placeOf(array, place, true);
    const [expected] = bitsOf(Real, integer(value) | 0);
    const limit = Number(timeout);
    if (host.access({ op: 'read', ...at }) !== expected) return 'not-equal';
    const isTimed = timeout !== undefined && !Number.isNaN(limit) && limit !== Infinity;
    if (isTimed && host.choose(2) === 1) return 'timed-out';
    host.sleep({ ...at, isTimed });
    return 'ok';
  },
  notify(array, place, count) {
    const { at } = placeOf(array, place, true);
    host.notify(at, count === undefined ? Infinity : Math.max(0, integer(count)));
    return undefined;   // nobody looks at it: `instrument` refuses that
  },
};
for (const [name, operation] of Object.entries(OPERATIONS)) {
  followed[name] = (array, place, value) => {
    const { Real, at } = placeOf(array, place);
    const [operand] = bitsOf(Real, integer(value));
    const most = 2 ** (8 * at.size);
    const next = (seen) => (((operation(seen, operand) % most) + most) % most);
    return valueOf(Real, [host.access({ op: 'modify', ...at, next })]);
  };
}
for (const [name, act] of Object.entries(followed)) {
  const native = real[name];
  Atomics[name] = { [name](view, ...given) {
    if (!views.has(view)) return native.call(Atomics, view, ...given);
    if (!host.isLive()) return native.call(Atomics, views.get(view), ...given);
    return act(views.get(view), ...given);
  } }[name];
}
Atomics.waitAsync = () =>
  host.refuse('`Atomics.waitAsync` isn\'t followed: write what is done once it is woken as an agent of its own, after `Atomics.wait`');
Atomics.isLockFree = (size) =>
  (Number(size) === 4 ? true : host.refuse('`Atomics.isLockFree` differs from engine to engine: put its answer in its place'));
Atomics.pause = () => undefined;
for (const name of ['Instance', 'Module', 'instantiate', 'compile', 'instantiateStreaming', 'compileStreaming']) {
  if (globalThis.WebAssembly?.[name]) {
    WebAssembly[name] = function refused() { host.refuse('code of WebAssembly isn\'t followed: write the accesses that it makes'); };
  }
}

const memory = {
  block: (number) => blocks[number],
  blockOf: (length) => {
    const block = new Block(length);
    numberOf(block);
    return block;
  },
  reset: () => { blocks.length = 0; },
  isBlock,
  numberOf,
  view: (value) => views.get(value),
  viewOf: (kind, block, offset, length) => new (natives.get(kind).Stand)(block, offset, length),
};
