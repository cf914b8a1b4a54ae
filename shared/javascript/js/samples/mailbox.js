// A mailbox of one slot, with two that send: no letter is lost or had twice.
const box = new Int32Array(new SharedArrayBuffer(4));
const send = (letter) => Atomics.compareExchange(box, 0, 0, letter) === 0;
const take = () => Atomics.exchange(box, 0, 0);
agents({ A: () => send(5), B: () => send(6), C: () => [take(), take()] });
// check: C[0] === 0 || C[0] !== C[1]
