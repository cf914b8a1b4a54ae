'use strict';
// pictures.js TEXT WHY: pictures of executions, asked for by a line of JSON each on standard input: {kind, file, sources, values, unmet},
// of the kinds of shared/javascript/executions/scenes.js. For each it prints a line: its title, words, memory-order, data races, graph,
// and the edges that go through a box; or why there is none. TEXT and WHY are the paths of jslit-text and jslit-why.

const fs = require('fs');
const { spawnSync } = require('child_process');
const { hits } = require('../../shared/javascript/executions/picture.js');
const scenes = require('../../shared/javascript/executions/scenes.js');

// What a program says, as JSON, of a text.
const told = (program, words, input) => JSON.parse(spawnSync(program, words, { input, maxBuffer: 1 << 28 }).stdout);

// Edges that go through a box: lines that meet one in which they neither begin nor end.
function through({ boxes, segments }) {
  const isIn = ([x, y], box) => Math.abs(x - box[0]) < box[2] && Math.abs(y - box[1]) < box[3];
  return segments.filter(([start, end]) => (
    [...boxes.values()].some((box) => hits(start, end, box, -1) && !isIn(start, box) && !isIn(end, box))));
}

async function drawn(text, why, { kind, file, sources = {}, values = {}, unmet = false }) {
  const data = fs.readFileSync(file);
  const { test } = told(text, [], data);
  const ask = async (words) => told(why, ['--json', ...words], data);
  const [from, held] = [sources, values].map((each) => new Map(Object.entries(each)));
  const given = { example: [from, held], chosen: [from], attempt: [unmet], race: [] }[kind];
  const drawing = await scenes[kind](ask, data.toString('latin1'), test, ...given);
  const picture = drawing.laidOut();
  const { order, races } = drawing.execution;
  return { title: drawing.title, words: drawing.words, order, races, graph: picture.graph(), through: through(picture) };
}

async function main([text, why]) {
  for (const line of fs.readFileSync(0, 'utf8').split('\n').filter(Boolean)) {
    const answer = await drawn(text, why, JSON.parse(line)).catch((error) => ({ fault: error.message }));
    process.stdout.write(`${JSON.stringify(answer)}\n`);
  }
}

main(process.argv.slice(2));
