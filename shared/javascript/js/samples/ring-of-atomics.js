// The same through Atomics: ranges that aren't equal don't synchronize.
const sab = new SharedArrayBuffer(8);
const words = new Uint16Array(sab);
const bytes = new Uint8Array(sab);
agents({
  left() { const seen = Atomics.load(bytes, 0); if (seen === 1) Atomics.store(words, 2, 1); return seen; },
  right() { const seen = Atomics.load(bytes, 4); if (seen === 1) Atomics.store(words, 0, 1); return seen; },
});
// check: !(left === 1 && right === 1)
