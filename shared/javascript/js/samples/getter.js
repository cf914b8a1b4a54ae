// A turn of a loop that reads nothing but a getter, which counts: no turn is left out.
const flag = new Uint8Array(new SharedArrayBuffer(1));
const counter = { looks: 0, get isUp() { this.looks += 1; return Atomics.load(flag, 0) === 1; } };
agents({
  raiser() { Atomics.store(flag, 0, 1); },
  looker() { for (let turn = 0; turn < 2 && !counter.isUp; turn += 1); return counter.looks; },
});
// check: looker === 1 || looker === 2
