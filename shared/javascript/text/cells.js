'use strict';
// Arrays that a text names as its writer did, `data[0]` or `Atomics.store(flag, 0, 1)`: each gets cells of its own in the block, the same
// on all lines and none that another has. Where that can't be told, it gets none: so it is where U8, U16 or U32 stand in the text too,
// since the name may be another one for their bytes.

const { codeOf } = require('./forms.js');
const limits = require('../../limits.json');

const WIDE = '\\b(?:[UuIiFfB]64|B[UI]64|[Uu]?[Ii]nt64|[Ff]32|[Ff]loat(?:16|32|64)|[Bb]ig(?:U?[Ii]nt)?(?:64)?)(?:Array)?\\b';
const KNOWN = /^(?:DV|Atomics|check|if|r[0-7]|(?:[iuUI]|ui)(?:8|16|32)|[UI]8C|U?[iI]nt(?:8|16|32)(?:Array)?|Uint8ClampedArray)$/;
const VIEW = /\b(?:U|I|Uint|Int|u|i)(8|16|32)(?:Array)?\b/g;
const ELEMENT = /\b([A-Za-z_]\w*)\[\s*([^\]\s]*)\s*\]/g;
const ARGUMENT = /\b(?:[aA]tomics?\s*(?:\.|::)\s*)?(?:\w+)\(\s*([A-Za-z_]\w*)\s*,\s*([^,)\s]*)/g;
const GREATEST = 4096;  // an index, for which no block has room
const LONGEST = 1000;   // characters of a line that somebody wrote by hand

// Whether an access to U8, U16, U32 or DV stands in the code.
const isOfBlock = (code) => /\b(?:U|I|Uint|Int|u|i)(?:8|16|32)(?:Array)?\s*(?:\[|,)\s*\d|\b[gs]etU?[iI]nt(?:8|16|32)\(/.test(code);

class Cells {
  constructor(lines) {
    const codes = lines.map(codeOf).filter((code) => code.length <= LONGEST);
    this.views = new Set(codes.flatMap((code) => [...code.matchAll(VIEW)].map(([, bits]) => `U${bits}`)));
    this.sizes = new Map();  // how many elements each name has; NaN where an index is no number
    for (const code of codes) {
      for (const [, name, index] of [...code.matchAll(ELEMENT), ...code.matchAll(ARGUMENT)]) this.see(name, index);
    }
    this.isMixed = codes.some(isOfBlock);
    const bytes = codes.map((code) => /^\s*bytes\s+(\d{1,4})\b/.exec(code)).find(Boolean);
    this.bytes = bytes ? Number(bytes[1]) : limits.block;
    this.view = this.chosen();
  }

  see(name, index) {
    if (KNOWN.test(name) || new RegExp(`^${WIDE}$`).test(name)) return;
    const size = /^\d{1,4}$/.test(index) && Number(index) < GREATEST ? Number(index) + 1 : NaN;
    const before = this.sizes.get(name) ?? 0;
    this.sizes.set(name, Number.isNaN(size) || Number.isNaN(before) ? NaN : Math.max(size, before));
  }

  // How many bytes the block needs where all names have elements of this view.
  needed(view) {
    return [...this.sizes.values()].reduce((sum, count) => sum + count, 0) * (view.slice(1) / 8);
  }

  // The view that the text uses, where it is one alone; else U32, which most programs share, where there is room, else U8; null where
  // it has no room.
  chosen() {
    const views = this.views.size === 1 ? [...this.views] : ['U32', 'U8'];
    return views.find((view) => this.needed(view) <= this.bytes) ?? (Number.isNaN(this.needed('U8')) ? views[0] : null);
  }

  // The element that a name's element has: {view, place, said}, or null where it can't be told.
  at(name, index) {
    if (this.view === null || this.isMixed || !this.sizes.has(name)) return null;
    let first = 0;
    for (const [other, count] of this.sizes) {
      if (other === name) break;
      first += count;
    }
    const place = first + Number(index);
    if (Number.isNaN(place)) return null;
    const named = this.sizes.get(name) === 1 ? name : `${name}[${index}]`;
    return { view: this.view, place, said: `${named}: ${this.view}[${place}]` };
  }

  // Why a name has no cells.
  why(name) {
    if (this.isMixed) {
      return `memory is U8, U16 and U32, views of the whole block: where \`${name}\` is one of these, write that; `
        + 'where it is another array, give it elements that no other line has';
    }
    const unknown = [...this.sizes].find(([, count]) => Number.isNaN(count));
    if (unknown) return `where \`${name}\` stands in the block can't be told, since an index of \`${unknown[0]}\` is no number`;
    const views = this.views.size === 1 ? [...this.views] : ['U8'];
    const names = [...this.sizes.keys()].map((each) => `\`${each}\``).join(', ');
    const need = this.needed(views[0]);
    return `memory is U8, U16 and U32, views of the whole block, and ${names} need cells of their own: ${need} bytes as ${views[0]}`
      + `${need <= limits.block ? `; write \`bytes ${need}\`` : `, and a block has ${limits.block} at most`}`;
  }
}

module.exports = { Cells, WIDE };
