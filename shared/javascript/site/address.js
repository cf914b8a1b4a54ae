'use strict';
// The text in the address, after the # alone: that part is sent to no server.

const { bytesOf, encoded, joined } = require('../signs.js');

// A litmus text stands behind `#t=`, JavaScript behind `#js=`, and its harness behind `&use=`: in base64, and with a ~ before it packed.
const FORM = /^#(t|js)=([^&]*)(?:&use=([^&]*))?$/;
const MOST = 1 << 20;   // bytes of a text that is unpacked

const wordsOf = (bytes) => btoa(joined(bytes)).replaceAll('+', '-').replaceAll('/', '_').replaceAll('=', '');
const bytesIn = (words) => bytesOf(atob(words.replaceAll('-', '+').replaceAll('_', '/')));

// What comes of bytes behind a stream.
async function through(stream, bytes) {
  const reader = new Blob([bytes]).stream().pipeThrough(stream).getReader();
  const pieces = [];
  let length = 0;
  for (let piece = await reader.read(); !piece.done; piece = await reader.read()) {
    length += piece.value.length;
    if (length > MOST) throw new RangeError('too long');
    pieces.push(piece.value);
  }
  return new Uint8Array(await new Blob(pieces).arrayBuffer());
}

// The shorter one of both forms, where the browser can pack.
async function packed(text) {
  const bytes = encoded(text);
  const plain = wordsOf(bytes);
  try {
    const short = `~${wordsOf(await through(new CompressionStream('deflate-raw'), bytes))}`;
    return short.length < plain.length ? short : plain;
  } catch {
    return plain;
  }
}

async function unpacked(words) {
  const bytes = words.startsWith('~') ? await through(new DecompressionStream('deflate-raw'), bytesIn(words.slice(1))) : bytesIn(words);
  return new TextDecoder('utf-8', { fatal: true }).decode(bytes);
}

async function addressOf(text, language = 'litmus', use = '') {
  if (language === 'litmus') return `#t=${await packed(text)}`;
  return `#js=${await packed(text)}${use === '' ? '' : `&use=${await packed(use)}`}`;
}

// The text that the address has, or null, with its language and harness; '' and an address that can't be read are told apart by `broken`.
async function textOf(address) {
  const none = { text: null, use: '', language: null, broken: false };
  if (!/^#(?:t|js)=/.test(address)) return none;
  try {
    const [, kind, text, use = ''] = FORM.exec(address);
    return { text: await unpacked(text), use: await unpacked(use), language: kind === 'js' ? 'javascript' : 'litmus', broken: false };
  } catch {
    return { ...none, broken: true };
  }
}

module.exports = { addressOf, textOf };
