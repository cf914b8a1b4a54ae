// A lock that is tried twice.
const lock = new Int32Array(new SharedArrayBuffer(8));
function tryTwice() {
  for (let tries = 1; tries <= 2; tries += 1) {
    if (Atomics.compareExchange(lock, 0, 0, 1) === 0) {
      const before = lock[1];
      lock[1] = before + 1;
      Atomics.store(lock, 0, 0);
      return before;
    }
  }
  return 'gave up';
}
agents({ A: tryTwice, B: tryTwice });
// check: A !== B
