'use strict';
// The command jslit-page: a server of the page's files, to this machine alone.

const fs = require('fs');
const http = require('http');
const path = require('path');
const { Failure, TOP, endAtSignals, run, start } = require('./command.js');
const { readOptions } = require('./options.js');
const { shown, strerror } = require('./system.js');

const [INSTALLED, MADE] = [path.join(TOP, 'site'), path.join(TOP, 'out', 'site')];

const TYPES = { '.html': 'text/html', '.js': 'text/javascript', '.css': 'text/css', '.svg': 'image/svg+xml', '.png': 'image/png' };

// The file of a folder that an address names, or null.
function fileOf(folder, address) {
  try {
    const name = path.posix.normalize(`/${decodeURIComponent(address.split(/[?#]/)[0])}`);
    const file = path.join(folder, name, name.endsWith('/') ? 'index.html' : '');
    return fs.statSync(file).isFile() ? file : null;
  } catch {
    return null;   // there is none, or the address is none
  }
}

function answer(folder, { method, url }, response) {
  const isAsked = method === 'GET' || method === 'HEAD';
  const file = isAsked ? fileOf(folder, url) : null;
  // A site that is made anew is seen at once.
  const head = { Server: 'jslit', 'Cache-Control': 'no-cache' };
  if (file === null) return response.writeHead(isAsked ? 404 : 501, head).end();
  const { size, mtime } = fs.statSync(file);
  const type = TYPES[path.extname(file)] ?? 'application/octet-stream';
  response.writeHead(200, { ...head, 'Content-Type': type, 'Content-Length': size, 'Last-Modified': mtime.toUTCString() });
  if (method === 'HEAD') return response.end();
  return fs.createReadStream(file).on('error', () => response.destroy()).pipe(response);
}

// Takes a port, before there is anything to serve: `found` is a promise of the folder.
function serve(port, found) {
  const server = http.createServer((request, response) => found.then((folder) => answer(folder, request, response)));
  return new Promise((done, failed) => { server.on('error', failed).listen(port, '127.0.0.1', () => done(server)); });
}

// Where the page stands: the one that is named or installed, or that of the repository, which is made first.
async function folderOf(named) {
  if (named !== null && !fs.existsSync(path.join(named, 'index.html'))) throw new Failure(4, `${shown(named)}: there is no page`);
  if (named !== null || fs.existsSync(INSTALLED)) return named ?? INSTALLED;
  const { status } = await start(path.join(TOP, 'tools', 'site'), [MADE], ['ignore', 2, 2]).ended;
  if (status !== 0) throw new Failure(70, 'there is no page');
  return MADE;
}

async function main(given) {
  const words = readOptions(given, { most: 0 });
  if (words === null) return 0;
  // The port comes before the page is made, so that nobody waits for one that can't be had.
  let found;
  const server = await serve(words.port, new Promise((done) => { found = done; })).catch((error) => {
    throw new Failure(4, `port ${words.port}: ${strerror(error)}`);
  });
  try {
    found(await folderOf(words.site));
  } catch (error) {
    server.close();
    server.closeAllConnections?.();
    throw error;
  }
  endAtSignals(true, 0);
  process.stdout.write(`http://127.0.0.1:${server.address().port}/\n`);
  return 0;
}

run('jslit-page', main, { isQuiet: true });
