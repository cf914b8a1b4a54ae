// A clock of 64 bits, written plainly: a reader may have half of it.
const clock = new BigInt64Array(new SharedArrayBuffer(8));
agents({ writer() { clock[0] = (1n << 32n) + 1n; }, reader() { return clock[0]; } });
// check: reader === 0n || reader === 4294967297n
