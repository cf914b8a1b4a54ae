// What is there before the agents start.
const stock = new Uint8Array(new SharedArrayBuffer(2));
stock.fill(9);
stock[1] = 4;
agents({
  A() { return Atomics.sub(stock, 0, stock[1]); },
  B() { return Atomics.sub(stock, 0, stock[1]); },
});
// check: A + B === 14
