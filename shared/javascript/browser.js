'use strict';
// browser.js COMMAND.. FILE: an engine that is a browser of Chromium's kind, without a screen. It serves a page with the program in
// FILE, with the two headers that shared memory asks for, opens it in the browser, and prints what the page tells. The browser is
// told to close over its own protocol, by two pipes, so that how it ends is its own; where a page crashes, or it ends before it was
// told to, the status is 1. Any other last word than a file's is handed to the browser itself.

const fs = require('fs');
const http = require('http');
const os = require('os');
const path = require('path');
const { spawn, spawnSync } = require('child_process');
const { text: textOf } = require('stream/consumers');

const [command, ...given] = process.argv.slice(2);
const file = given.pop();
const WORDS = ['--headless', '--remote-debugging-pipe', '--disable-gpu', '--disable-dev-shm-usage', '--no-first-run',
  '--disable-background-networking', '--disable-component-update', ...(process.getuid?.() === 0 ? ['--no-sandbox'] : [])];
const PAGE = '<!DOCTYPE html><meta charset="utf-8"><title>jslit-engine</title><script src="/program.js"></script>';
const HEADERS = {
  'Cross-Origin-Opener-Policy': 'same-origin', 'Cross-Origin-Embedder-Policy': 'require-corp', 'Cache-Control': 'no-store',
};

// A server on this machine alone, whose `tell` is called with the address and text of what the page posts.
function serve(tell) {
  const server = http.createServer((request, response) => {
    const types = { '/': ['text/html', PAGE], '/program.js': ['text/javascript', fs.readFileSync(file)] };
    const [type, body] = request.method === 'GET' ? types[request.url] ?? ['text/plain', ''] : ['text/plain', ''];
    textOf(request).then((text) => {
      response.writeHead(200, { ...HEADERS, 'Content-Type': type }).end(body);
      if (request.method === 'POST') tell(request.url, text);
    }, () => {});
  });
  return new Promise((done) => { server.listen(0, '127.0.0.1', () => done(server)); });
}

function withBrowser(address, server) {
  const folder = fs.mkdtempSync(path.join(os.tmpdir(), 'jslit-browser-'));
  process.on('exit', () => fs.rmSync(folder, { recursive: true, force: true, maxRetries: 5 }));
  const browser = spawn(command, [...given, ...WORDS, `--user-data-dir=${folder}`, address],
    { stdio: ['ignore', 'ignore', 'inherit', 'pipe', 'pipe'] });
  let number = 0;
  let closing = false;
  const ask = (method, params = {}) => browser.stdio[3].write(`${JSON.stringify({ id: number += 1, method, params })}\0`);
  browser.stdio[3].on('error', () => {});
  browser.on('error', (error) => {
    process.stderr.write(`${error.message}\n`);
    process.exit(70);
  });
  let rest = '';
  browser.stdio[4].on('error', () => {}).on('data', (piece) => {
    const messages = (rest + piece).split('\0');
    rest = messages.pop();
    if (messages.some((message) => JSON.parse(message).method === 'Target.targetCrashed')) {
      process.stderr.write('fatal: the page crashed\n');
      process.exit(1);
    }
  });
  ask('Target.setDiscoverTargets', { discover: true });
  browser.on('exit', (status, signal) => {
    server.close();
    server.closeAllConnections?.();
    if (signal !== null) process.stderr.write(`the browser ended by ${signal}\n`);
    process.exitCode = closing && signal === null ? status : status || 1;
  });
  return () => {
    closing = true;
    ask('Browser.close');
  };
}

async function main() {
  if (!fs.existsSync(file)) {
    const { status, error } = spawnSync(command, [...given, file], { stdio: ['ignore', 'inherit', 'inherit'] });
    process.exitCode = error ? 70 : status ?? 1;
    return;
  }
  let close;
  const server = await serve((place, text) => {
    if (place === '/said') process.stdout.write(text);
    if (place === '/ended') close();
  });
  close = withBrowser(`http://127.0.0.1:${server.address().port}/`, server);
}

main();
