// An agent that throws has that as its outcome.
const state = new Int32Array(new SharedArrayBuffer(4));
const take = () => {
  if (Atomics.compareExchange(state, 0, 0, 1) !== 0) throw new RangeError('it is taken');
  return 'got it';
};
agents({ A: take, B: take });
