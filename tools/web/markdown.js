'use strict';
// Markdown as HTML, by Debian's node-marked; what is HTML in a text stays text. As a command, of a list of texts as JSON on standard
// input to the list of their HTML on standard output.

const fs = require('fs');
const { marked } = require('/usr/share/nodejs/marked/lib/marked.cjs');

const escaped = (text) => text.replace(/[&<>"]/g, (sign) => `&#${sign.charCodeAt(0)};`);
const renderer = {
  html: escaped, code: (text) => `<pre>${escaped(text)}</pre>\n`,
  table: (head, body) => `<div class="scroll"><table><thead>${head}</thead><tbody>${body}</tbody></table></div>\n`,
};
marked.use({ renderer });
const rendered = (text) => marked.parse(text);
if (require.main === module) process.stdout.write(JSON.stringify(JSON.parse(fs.readFileSync(0, 'utf8')).map(rendered)));

module.exports = { escaped, rendered };
