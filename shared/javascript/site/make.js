'use strict';
// Elements of the page.

const byId = (id) => document.getElementById(id);

// make('button', {type: 'button'}, 'Text', otherElement): text is never read as HTML.
function make(name, given = {}, ...inside) {
  const element = document.createElement(name);
  for (const [key, value] of Object.entries(given)) {
    if (key.startsWith('on')) element.addEventListener(key.slice(2), value);
    else if (value !== null && value !== undefined && value !== false) element.setAttribute(key, value === true ? '' : value);
  }
  element.append(...inside);
  return element;
}

// A sentence, in which what stands between two ` is code.
const sentence = (text) => text.split(/`([^`]*)`/).map((part, place) => (place % 2 ? make('code', {}, part) : part));

const grouped = (number) => number.toLocaleString('en');

module.exports = { byId, grouped, make, sentence };
