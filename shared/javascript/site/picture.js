'use strict';
// The picture of an execution, as the worker lays it out.

const { byId } = require('./make.js');

const SVG = 'http://www.w3.org/2000/svg';
const MARGIN = 14;
const LARGER = 1.15;

function shape(name, given, ...inside) {
  const element = document.createElementNS(SVG, name);
  for (const [key, value] of Object.entries(given)) element.setAttribute(key, value);
  element.append(...inside);
  return element;
}

// A triangle at the end of a way.
function head(points) {
  const [[fromX, fromY], [x, y]] = points.slice(-2);
  const turn = Math.atan2(y - fromY, x - fromX);
  const side = (by) => `${x - 9 * Math.cos(turn + by)} ${y - 9 * Math.sin(turn + by)}`;
  return shape('path', { class: 'head', d: `M${x} ${y}L${side(0.4)}L${side(-0.4)}Z` });
}

function edge({ kind, arrow, points }) {
  const way = shape('path', { d: `M${points.map((point) => point.join(' ')).join('L')}` });
  return shape('g', { class: kind }, way, ...(arrow ? [head(points)] : []));
}

function box({ name, kind, x, y, width, height, lines, size }) {
  const step = size * 1.24;
  const at = kind === 'reason' ? x - width / 2 + 6 : x;
  const first = y - ((lines.length - 1) / 2) * step;
  const texts = lines.map((line, place) => shape('text', { x: at, y: first + place * step, 'font-size': size }, line));
  return shape('g', { class: kind, 'data-name': name }, shape('rect', { x: x - width / 2, y: y - height / 2, width, height }), ...texts);
}

function showPicture(picture, title) {
  const points = [...picture.boxes.flatMap(({ x, y, width, height }) => [[x - width / 2, y - height / 2], [x + width / 2, y + height / 2]]),
    ...picture.edges.flatMap((each) => each.points)];
  const [left, top] = [0, 1].map((axis) => Math.min(...points.map((point) => point[axis])) - MARGIN);
  const [right, bottom] = [0, 1].map((axis) => Math.max(...points.map((point) => point[axis])) + MARGIN);
  const [width, height] = [right - left, bottom - top];
  const made = shape('svg', { viewBox: `${left} ${top} ${width} ${height}`, width: LARGER * width, height: LARGER * height, role: 'img',
    'aria-label': `${title}. The lines below say the same.` }, ...picture.edges.map(edge), ...picture.boxes.map(box));
  byId('picture').replaceChildren(made);
  for (const key of document.querySelectorAll('#legend [data-kind]')) {
    key.hidden = !picture.edges.some((each) => each.kind === key.dataset.kind);
  }
  byId('picture').scrollLeft = 0;
}

byId('fit').addEventListener('change', () => byId('picture').classList.toggle('fits', byId('fit').checked));

module.exports = { showPicture };
