'use strict';
// Files that the reader saves: a text, or the picture as SVG or PNG, in the colours of paper.

const { byId, make } = require('./make.js');

const LARGER = 2;   // dots of a PNG for one of the picture
const KEPT = ['fill', 'stroke', 'stroke-width', 'stroke-dasharray', 'rx',
  'font-family', 'font-size', 'font-weight', 'text-anchor', 'dominant-baseline'];

function saveBlob(name, blob) {
  const address = URL.createObjectURL(blob);
  make('a', { href: address, download: name }).click();
  setTimeout(() => URL.revokeObjectURL(address), 10_000);
}

const saveText = (name, text) => saveBlob(name, new Blob([text], { type: 'text/plain' }));

// Gives `use` a copy of the picture whose shapes have their looks with them.
function withCopy(use) {
  const shown = byId('picture').querySelector('svg');
  const copy = shown.cloneNode(true);
  const place = make('div', { class: 'for-paper' }, copy);
  byId('picture').append(place);
  for (const each of copy.querySelectorAll('path, rect, text')) {
    const looks = getComputedStyle(each);
    for (const name of KEPT) {
      const value = looks.getPropertyValue(name);
      if (value && value !== 'auto') each.setAttribute(name, value);
    }
  }
  const paper = getComputedStyle(place).getPropertyValue('--paper').trim();
  place.remove();
  return use(copy, paper);
}

function box(copy) {
  const [x, y, width, height] = copy.getAttribute('viewBox').split(' ').map(Number);
  return { x, y, width, height };
}

function saveSvg(name) {
  withCopy((copy, paper) => {
    const field = document.createElementNS('http://www.w3.org/2000/svg', 'rect');
    for (const [key, value] of Object.entries({ ...box(copy), fill: paper })) field.setAttribute(key, value);
    copy.prepend(field);
    copy.setAttribute('xmlns', 'http://www.w3.org/2000/svg');
    saveBlob(name, new Blob([new XMLSerializer().serializeToString(copy)], { type: 'image/svg+xml' }));
  });
}

const drawn = (value) => value !== null && value !== 'none' && value !== '';

function paint(brush, shape) {
  const given = (name) => shape.getAttribute(name);
  brush.fillStyle = given('fill');
  brush.strokeStyle = drawn(given('stroke')) ? given('stroke') : 'transparent';
  brush.lineWidth = parseFloat(given('stroke-width')) || 1;
  brush.setLineDash((given('stroke-dasharray') ?? '').match(/[\d.]+/g)?.map(Number) ?? []);
  if (shape.localName === 'text') {
    brush.font = `${given('font-weight')} ${given('font-size')} ${given('font-family')}`;
    brush.textAlign = given('text-anchor') === 'start' ? 'left' : 'center';
    brush.fillText(shape.textContent, Number(given('x')), Number(given('y')));
    return;
  }
  const way = new Path2D(shape.localName === 'path' ? given('d') : undefined);
  if (shape.localName === 'rect') {
    const [x, y, width, height] = ['x', 'y', 'width', 'height'].map((name) => Number(given(name)));
    way.roundRect(x, y, width, height, parseFloat(given('rx')) || 0);
  }
  if (drawn(given('fill'))) brush.fill(way);
  brush.stroke(way);
}

function savePng(name) {
  withCopy((copy, paper) => {
    const { x, y, width, height } = box(copy);
    const canvas = make('canvas', { width: Math.ceil(LARGER * width), height: Math.ceil(LARGER * height) });
    const brush = canvas.getContext('2d');
    brush.scale(LARGER, LARGER);
    brush.translate(-x, -y);
    brush.fillStyle = paper;
    brush.fillRect(x, y, width, height);
    brush.textBaseline = 'middle';
    for (const shape of copy.querySelectorAll('path, rect, text')) paint(brush, shape);
    canvas.toBlob((blob) => saveBlob(name, blob), 'image/png');
  });
}

module.exports = { savePng, saveSvg, saveText };
