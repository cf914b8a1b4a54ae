'use strict';
// A picture of boxes and edges with labels, in which no edge goes through a box: as a graph for Graphviz, or as shapes. Boxes are [x, y,
// half width, half height], in points. A label stands as a box on its edge; where the straight way is not free an edge goes by points
// round the boxes.

const CLEAR = 5;
const DISTANCES = [0, 24, -24, 48, -48, 72, -72, 110, -110, 150, -150, 200, -200, 260, -260, 340, -340, 440, -440];
const PLACES = [0.5, 0.4, 0.6, 0.3, 0.7, 0.2, 0.8];
const BEND = 15;  // what a bend costs, in points of length

// How Graphviz shows each kind of box, and of edge: its color and its line.
const BOXES = {
  title: 'shape=plaintext, fixedsize=false', agent: 'shape=plaintext', init: 'shape=box, style="rounded,filled", fillcolor=white',
  event: 'shape=box, style=filled, fillcolor=white', reason: 'shape=plaintext',
};
const EDGES = {
  'agent-order': ['gray50', 'style=solid'], reads: ['firebrick', 'style=solid'], refused: ['firebrick', 'style=solid, penwidth=3'],
  synchronizes: ['mediumblue', 'style=dashed'], step: ['darkgreen', 'style=solid, penwidth=3'], earlier: ['darkgreen', 'style=solid'],
  race: ['darkorange3', 'style=dotted, penwidth=2'], least: ['darkorange3', 'style=dotted, penwidth=5'],
};

const distance = (one, other) => Math.hypot(one[0] - other[0], one[1] - other[1]);
const keyOf = ([x, y]) => `${x},${y}`;

// Whether the line from start to end meets the box, or comes as near as `clear`.
function hits(start, end, box, clear = CLEAR) {
  let [low, high] = [0, 1];
  for (const axis of [0, 1]) {
    const step = end[axis] - start[axis];
    const half = box[axis + 2] + clear;
    const [least, most] = [box[axis] - half - start[axis], box[axis] + half - start[axis]];
    if (axis === 0 && ((start[0] <= box[0] - half && end[0] <= box[0] - half) || (start[0] >= box[0] + half && end[0] >= box[0] + half))) {
      return false;
    }
    if (Math.abs(step) < 1e-9) {
      if (!(least < 0 && most > 0)) return false;
      continue;
    }
    const [first, last] = [least / step, most / step].sort((one, other) => one - other);
    [low, high] = [Math.max(low, first), Math.min(high, last)];
  }
  return low < high;
}

// Where the line from start to the middle of the box meets its side.
function entry(start, [x, y, width, height]) {
  const [dx, dy] = [start[0] - x, start[1] - y];
  const part = Math.min(dx ? width / Math.abs(dx) : Infinity, dy ? height / Math.abs(dy) : Infinity, 1);
  return [x + dx * part, y + dy * part];
}

const overlap = (one, two, clear = 4) => (
  Math.abs(one[0] - two[0]) < one[2] + two[2] + clear && Math.abs(one[1] - two[1]) < one[3] + two[3] + clear);

const widest = (lines) => Math.max(...lines.map((line) => line.length));

class Picture {
  constructor() {
    Object.assign(this, { boxes: new Map(), segments: [], lines: [], texts: new Map(), edges: [] });
  }

  box(name, x, y, text, size, kind) {
    const lines = text.split('\n');
    this.texts.set(name, { lines, size, kind });
    const look = BOXES[kind] ?? `shape=box, style=filled, fillcolor=white, color=white, fontcolor="${EDGES[kind][0]}"`;
    const half = [widest(lines) * size * 0.3 + 6, lines.length * size * 0.62 + 3];
    this.boxes.set(name, [x, y, ...half]);
    const quoted = text.replaceAll('\\', '\\\\').replaceAll('"', '\\"');
    const label = kind === 'reason' ? `${quoted.replaceAll('\n', '\\l')}\\l` : quoted.replaceAll('\n', '\\n');
    this.lines.push(`"${name}" [pos="${x.toFixed(0)},${y.toFixed(0)}!", width=${(half[0] / 36 + 0.02).toFixed(2)}, `
      + `height=${(half[1] / 36).toFixed(2)}, fontsize=${size}, label="${label}", ${look}];`);
  }

  // Whether the line meets no box but those that it begins and ends in.
  isFree(start, end, but) {
    return [...this.boxes].every(([name, box]) => but.includes(name) || !hits(start, end, box));
  }

  // Points round the boxes, by which an edge may go.
  corners() {
    const gap = CLEAR + 4 + 5 * (this.lines.length % 4);
    const boxes = [...this.boxes.values()];
    return boxes.flatMap(([x, y, width, height]) => [-1, 1].flatMap((across) => [-1, 1].map((along) => (
      [x + across * (width + gap), y + along * (height + gap)]))))
      .filter((point) => !boxes.some((box) => overlap([...point, 0, 0], box, CLEAR)));
  }

  // The points of the shortest way found from start to end, both in it, or null: A* over the corners.
  way(start, end, but) {
    if (this.isFree(start, end, but)) return [start, end];
    const points = [end, ...this.corners()];
    const best = new Map([[keyOf(start), 0]]);
    const waiting = [{ whole: distance(start, end), length: 0, point: start, path: [start] }];
    while (waiting.length) {
      const least = waiting.reduce((one, other, at) => (other.whole < waiting[one].whole ? at : one), 0);
      const [{ length, point, path }] = waiting.splice(least, 1);
      if (keyOf(point) === keyOf(end)) return path;
      if (length > best.get(keyOf(point))) continue;
      for (const other of points) {
        const longer = length + distance(point, other) + BEND;
        const inside = keyOf(point) === keyOf(start) || keyOf(other) === keyOf(end) ? but : [];
        if (longer < (best.get(keyOf(other)) ?? Infinity) && this.isFree(point, other, inside)) {
          best.set(keyOf(other), longer);
          waiting.push({ whole: longer + distance(other, end), length: longer, point: other, path: [...path, other] });
        }
      }
    }
    return null;
  }

  // An edge by these points; it begins and ends in the boxes first and last.
  line(first, path, last, kind, arrow) {
    const [color, look] = EDGES[kind];
    this.edges.push({ path, last, kind, arrow });
    const names = [first];
    for (const [x, y] of path.slice(1, -1)) {
      names.push(`point ${this.lines.length}`);
      const place = `pos="${x.toFixed(0)},${y.toFixed(0)}!"`;
      this.lines.push(`"${names.at(-1)}" [${place}, shape=point, width=0.01, height=0.01, color="${color}"];`);
    }
    names.push(last);
    path.slice(1).forEach((point, at) => this.segments.push([path[at], point]));
    names.slice(1).forEach((name, at) => {
      const head = arrow && at === names.length - 2 ? '' : 'arrowhead=none, ';
      this.lines.push(`"${names[at]}" -> "${name}" [${head}color="${color}", ${look}];`);
    });
  }

  middle(name) {
    return this.boxes.get(name).slice(0, 2);
  }

  edge(from, to, kind) {
    const [start, end] = [this.middle(from), this.middle(to)];
    this.line(from, this.way(start, end, [from, to]) ?? [start, end], to, kind, true);
  }

  // Where the label may stand, the shortest edges first: it meets no box and no edge.
  places(start, end, half) {
    const [dx, dy] = [end[0] - start[0], end[1] - start[1]];
    const length = Math.hypot(dx, dy) || 1;
    const boxes = [...this.boxes.values()];
    return DISTANCES.flatMap((d) => PLACES.map((t) => [start[0] + dx * t - (dy / length) * d, start[1] + dy * t + (dx / length) * d]))
      .filter((place) => !boxes.some((box) => overlap([...place, ...half], box))
        && !this.segments.some(([from, to]) => hits(from, to, [...place, ...half])))
      .sort((one, other) => distance(start, one) + distance(one, end) - distance(start, other) - distance(other, end));
  }

  labelled(from, to, text, kind, arrow = true) {
    const [start, end] = [this.middle(from), this.middle(to)];
    const lines = text.split('\n');
    const half = [widest(lines) * 10 * 0.3 + 4, 6.2 * lines.length + 3];
    const places = this.places(start, end, half);
    const straight = places.find((place) => this.isFree(start, place, [from]) && this.isFree(place, end, [to]));
    const { place, ways } = straight ? { place: straight, ways: [[start, straight], [straight, end]] } : this.roundAbout(from, to, places);
    const name = `label ${this.boxes.size}`;
    this.box(name, ...place, text, 10, kind);
    this.line(from, ways[0], name, kind, false);
    this.line(name, ways[1], to, kind, arrow);
  }

  // The label's place and both ways, for an edge that has to go round boxes.
  roundAbout(from, to, places) {
    const [start, end] = [this.middle(from), this.middle(to)];
    const lengthOf = (way) => way.slice(1).reduce((sum, point, at) => sum + distance(way[at], point) + BEND, 0);
    const found = places.filter((_, at) => at < 12 || at % 6 === 0)
      .map((place) => ({ place, ways: [this.way(start, place, [from]), this.way(place, end, [to])] }))
      .filter(({ ways }) => ways.every(Boolean));
    if (found.length) {
      return found.map((each) => ({ ...each, length: lengthOf(each.ways[0]) + lengthOf(each.ways[1]) }))
        .reduce((least, each) => (each.length < least.length ? each : least));
    }
    const place = places[0] ?? [(start[0] + end[0]) / 2, (start[1] + end[1]) / 2];
    return { place, ways: [[start, place], [place, end]] };
  }

  graph() {
    return `${['digraph execution {', 'layout=neato; splines=false; outputorder=edgesfirst; inputscale=72;',
      'node [fontname="Courier", fixedsize=true, margin=0]; edge [arrowsize=0.7];', ...this.lines].join('\n  ')}\n}`;
  }

  // The boxes with their texts, and the edges, each ended at the side of its last box; x grows to the right, y down.
  shapes() {
    const boxes = [...this.boxes].map(([name, [x, y, width, height]]) => ({
      name, x, y: -y, width: 2 * width, height: 2 * height, ...this.texts.get(name),
    }));
    const edges = this.edges.map(({ path, last, kind, arrow }) => ({
      kind, arrow, points: [...path.slice(0, -1), entry(path[path.length - 2], this.boxes.get(last))].map(([x, y]) => [x, -y]),
    }));
    return { boxes, edges };
  }
}

module.exports = { Picture, hits };
