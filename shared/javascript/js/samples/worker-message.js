// Workers of Node: main sums what two of them wrote, once both said that they are done.
const { Worker, isMainThread, parentPort, workerData } = require('worker_threads');
if (isMainThread) {
  const sab = new SharedArrayBuffer(8);
  const sums = new Int32Array(sab);
  let open = 2;
  for (const place of [0, 1]) {
    const worker = new Worker(__filename, { workerData: { sab, place } });
    worker.on('message', (text) => {
      open -= 1;
      if (open === 0) console.log(text, sums[0] + sums[1]);
    });
  }
} else {
  const sums = new Int32Array(workerData.sab);
  sums[workerData.place] = 10 + workerData.place;
  parentPort.postMessage('done');
}
