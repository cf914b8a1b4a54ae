'use strict';
// test262_host FILE: runs a test in the form of test262 on Node, with workers as its agents, and no more of the suite's
// harness than emitted tests ask for. The status is 1 where the test fails, with its error on standard error.

const fs = require('fs');
const vm = require('vm');
const { MessageChannel, Worker, receiveMessageOnPort } = require('worker_threads');

const AGENT = `const { receiveMessageOnPort, workerData } = require('worker_threads');
globalThis.$262 = { agent: {
  receiveBroadcast(take) {
    const clock = new Int32Array(new SharedArrayBuffer(4));
    for (;;) {
      const found = receiveMessageOnPort(workerData.port);
      if (found) return take(found.message);
      Atomics.wait(clock, 0, 0, 1);
    }
  },
  report(text) { workerData.port.postMessage(String(text)); },
  leaving() {},
} };
(0, eval)(workerData.script);`;

const ports = [];
const reports = [];
const clock = new Int32Array(new SharedArrayBuffer(4));
const sleep = (milliseconds) => Atomics.wait(clock, 0, 0, milliseconds);

globalThis.Test262Error = class Test262Error extends Error {};
globalThis.assert = (truth, message) => {
  if (truth !== true) throw new Test262Error(message);
};
globalThis.assert.sameValue = (seen, wanted, message) => {
  assert(Object.is(seen, wanted), `${message}: expected ${wanted}, and got ${seen}`);
};
globalThis.$262 = {
  agent: {
    start(script) {
      const { port1, port2 } = new MessageChannel();
      ports.push(port1);
      new Worker(AGENT, { eval: true, workerData: { port: port2, script }, transferList: [port2] });
    },
    safeBroadcast(view) {
      for (const port of ports) port.postMessage(view.buffer);
    },
    getReport() {
      for (let tries = 0; tries < 20000; tries += 1) {
        reports.push(...ports.map((port) => receiveMessageOnPort(port)).filter(Boolean));
        if (reports.length) return reports.shift().message;
        sleep(1);
      }
      throw new Test262Error('an agent gave no report for 20 seconds');
    },
    sleep,
  },
};

try {
  vm.runInThisContext(fs.readFileSync(process.argv[2], 'utf8'), { filename: process.argv[2] });
  process.exit(0);
} catch (error) {
  fs.writeSync(2, `${error.constructor.name}: ${error.message}\n`);
  process.exit(1);
}
