// Dekker's handshake: each raises its flag and looks for the other's.
const flags = new Int32Array(new SharedArrayBuffer(8));
const enter = (me) => {
  Atomics.store(flags, me, 1);
  return Atomics.load(flags, 1 - me) === 0;
};
agents({ A: () => enter(0), B: () => enter(1) });
// check: !(A && B)
