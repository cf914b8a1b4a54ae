// Two reads that justify one another, through accesses of two sizes: the standard's letter allows 1 and 1.
const sab = new SharedArrayBuffer(8);
const words = new Uint16Array(sab);
const bytes = new Uint8Array(sab);
agents({
  left() { const seen = bytes[0]; if (seen === 1) words[2] = 1; return seen; },
  right() { const seen = bytes[4]; if (seen === 1) words[0] = 1; return seen; },
});
// check: !(left === 1 && right === 1)
