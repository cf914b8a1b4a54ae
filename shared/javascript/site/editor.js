'use strict';
// The editor: line numbers beside the text, and the line at fault.

const { paint } = require('./highlight.js');
const { byId, make, sentence } = require('./make.js');

const area = byId('text');
const numbers = byId('numbers');
let fault = null;       // the one that is marked, where it stands
let faulty = new Set();  // the lines of all faults

const text = () => area.value;

function setText(value) {
  area.value = value;
  clearFault();
}

function onChange(act) {
  area.addEventListener('input', () => {
    clearFault();
    act();
  });
}

function number() {
  const lines = area.value.split('\n').map((_, place) => `${place + 1}\n`);
  numbers.replaceChildren(...(faulty.size === 0 ? [lines.join('')]
    : lines.map((line, at) => (faulty.has(at + 1) ? make('b', {}, `\u25b6 ${line}`) : line))));
  paint(area.value);
  place();
}

// Puts the marks where the text stands that they mark, as it is scrolled.
function place() {
  numbers.scrollTop = area.scrollTop;
  byId('colours').style.transform = `translate(${-area.scrollLeft}px, ${-area.scrollTop}px)`;
  const [mark, caret] = [byId('fault'), byId('caret')];
  mark.hidden = !fault;
  caret.hidden = !fault || fault.column === null;
  if (!fault) return;
  const style = getComputedStyle(area);
  const top = parseFloat(style.paddingTop) + (fault.line - 1) * parseFloat(style.lineHeight) - area.scrollTop;
  mark.style.top = `${top}px`;
  caret.style.top = `${top}px`;
  if (fault.column === null) return;
  let column = 0;
  for (const sign of lineOf(fault.line).slice(0, fault.column)) column = sign === '\t' ? (Math.floor(column / 8) + 1) * 8 : column + 1;
  caret.style.left = `calc(${parseFloat(style.paddingLeft) - area.scrollLeft}px + ${column}ch)`;
}

const lineOf = (line) => area.value.split('\n')[line - 1] ?? '';

function clearFault() {
  fault = null;
  faulty = new Set();
  area.removeAttribute('aria-invalid');
  byId('refusal').replaceChildren();
  number();
}

function goTo(line, column) {
  const at = area.value.split('\n').slice(0, line - 1).reduce((sum, each) => sum + each.length + 1, column ?? 0);
  area.focus();
  area.setSelectionRange(at, at);
  reveal(line);
}

function reveal(line) {
  const height = parseFloat(getComputedStyle(area).lineHeight);
  const top = (line - 1) * height;
  if (top < area.scrollTop || top + 2 * height > area.scrollTop + area.clientHeight) area.scrollTop = top - area.clientHeight / 2;
}

// Puts a text in place of all, so that the browser's own undoing takes it back at once.
function putText(text) {
  const { scrollTop } = area;
  area.focus();
  area.select();
  if (!document.execCommand('insertText', false, text)) area.value = text;
  area.scrollTop = scrollTop;
  area.dispatchEvent(new Event('input'));
}

// Offers to put back what stood there before lines were taken, as long as nothing else is written.
function offerBack(before) {
  const after = area.value;
  const back = () => {
    if (area.value === after) putText(before);
    byId('put-back').hidden = true;
  };
  byId('put-back').hidden = false;
  byId('put-back').onclick = back;
}

// Writes these in place of their lines; the lines after them keep their numbers, but where there are more lines in place of one.
function takeLines(taken) {
  const before = area.value;
  const all = before.split('\n');
  for (const { line, from, lines, write } of taken.sort((a, b) => b.line - a.line)) {
    all.splice((from ?? line) - 1, lines, ...write.split('\n'), ...Array(lines - 1).fill(''));
  }
  putText(all.join('\n'));
  offerBack(before);
}

// What is said of one fault, with what can be done about it.
function told(each, first) {
  const inside = [make('p', {}, make('strong', {}, each.line ? `Line ${each.line}: ` : ''), first ? each.refused : `then ${each.refused}`)];
  for (const said of each.said) inside.push(make('p', {}, ...sentence(said)));
  const buttons = make('div', { class: 'buttons' });
  if (each.write !== null) {
    inside.push(each.write === '' ? make('p', {}, 'write: nothing in its place') : make('p', {}, 'write: ', make('code', {}, each.write)));
    buttons.append(make('button', { type: 'button', id: first ? 'take' : null, onclick: () => takeLines([each]) },
      each.write === '' ? 'Leave this line out' : 'Take this line'));
  }
  if (each.line) {
    const go = () => goTo(each.line, each.column);
    buttons.append(make('button', { type: 'button', id: first ? 'go' : null, onclick: go }, `Go to line ${each.line}`));
  }
  return make('div', { class: 'fault' }, ...inside, buttons);
}

// Shows a refusal at its line, what there is to say of it, and the other faults.
function showRefusal(refusal) {
  const faults = [refusal, ...refusal.more];
  const inside = faults.map((each, place) => told(each, place === 0));
  const taken = [...new Map(faults.filter((each) => each.write !== null).map((each) => [each.line, each])).values()];
  if (taken.length > 1) {
    inside.unshift(make('div', { class: 'buttons' }, make('button', { type: 'button', id: 'take-all', onclick: () => takeLines(taken) },
      `Take these ${taken.length} lines`)));
  }
  if (refusal.line) {
    fault = { line: refusal.line, column: refusal.column };
    faulty = new Set(faults.map((each) => each.line));
    area.setAttribute('aria-invalid', 'true');
  }
  byId('refusal').replaceChildren(...inside);
  if (refusal.line) reveal(refusal.line);
  number();
}

area.addEventListener('scroll', place);
new ResizeObserver(place).observe(area);

module.exports = { clearFault, goTo, onChange, setText, showRefusal, text };
