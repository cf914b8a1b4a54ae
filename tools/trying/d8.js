'use strict';
// d8.js [--FLAG ..] FILE: stands in for the shell of V8, which Debian doesn't have: its names for workers and output over Node, and
// none of Node's own.

const fs = require('fs');
const vm = require('vm');
const { MessageChannel, Worker, receiveMessageOnPort } = require('worker_threads');

const words = process.argv.slice(2);
if (words.includes('--version')) process.exit(1);   // the shell's own: `V8 version 12.4.254.21`, and a prompt
const write = (text) => fs.writeSync(1, `${text}\n`);
const clock = new Int32Array(new SharedArrayBuffer(4));

const WITHIN = `const { workerData } = require('worker_threads');
const fs = require('fs'), vm = require('vm');
const { port, source } = workerData;
const context = vm.createContext({
  SharedArrayBuffer, Atomics, print: (text) => fs.writeSync(1, text + '\\n'), postMessage: (message) => port.postMessage(message),
});
port.on('message', (data) => context.onmessage({ data }));
vm.runInContext(source, context);`;

class ShellWorker {
  constructor(source, options) {
    if (options?.type !== 'string') throw new TypeError("this stand-in takes sources, by { type: 'string' }");
    const { port1, port2 } = new MessageChannel();
    this.port = port1;
    this.worker = new Worker(WITHIN, { eval: true, workerData: { port: port2, source }, transferList: [port2] });
  }

  postMessage(message) {
    this.port.postMessage(message);
  }

  getMessage() {
    for (;;) {
      const found = receiveMessageOnPort(this.port);
      if (found) return found.message;
      Atomics.wait(clock, 0, 0, 1);
    }
  }

  terminate() {
    this.worker.terminate();
  }
}

const shell = vm.createContext({
  Worker: ShellWorker, print: write, quit: (status) => process.exit(status), d8: {}, SharedArrayBuffer, Atomics,
});
try {
  vm.runInContext(fs.readFileSync(words.at(-1), 'utf8'), shell);
  process.exit(0);
} catch (error) {
  write(String(error));
  process.exit(1);
}
