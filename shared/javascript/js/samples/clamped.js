// What a store makes of values that don't fit: Uint8Clamped, Int8, Float32.
const sab = new SharedArrayBuffer(12);
const clamped = new Uint8ClampedArray(sab, 0, 2);
const signed = new Int8Array(sab, 2, 2);
const float = new Float32Array(sab, 4, 1);
const ready = new Uint8Array(sab, 8, 1);
agents({
  writer() { clamped[0] = 300; clamped[1] = -4; signed[0] = 200; signed[1] = 1.9; float[0] = 0.1; Atomics.store(ready, 0, 1); },
  reader() { return Atomics.load(ready, 0) === 1 ? [...clamped, ...signed, float[0] === Math.fround(0.1)] : null; },
});
// check: reader === null || reader.join() === '255,0,-56,1,true'
