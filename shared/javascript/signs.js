'use strict';
// Texts each sign of which stands for a byte, as the program reads them, and what they spell in UTF-8.

const bytesOf = (signs) => new Uint8Array(signs.length).map((_, at) => signs.charCodeAt(at));
const joined = (bytes) => Array.from(bytes, (byte) => String.fromCharCode(byte)).join('');
const encoded = (text) => new TextEncoder().encode(text);
const signsOf = (text) => joined(encoded(text));
const spelled = (signs) => new TextDecoder('utf-8', { ignoreBOM: true }).decode(bytesOf(signs));

module.exports = { bytesOf, encoded, joined, signsOf, spelled };
