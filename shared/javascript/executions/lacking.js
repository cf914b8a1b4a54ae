'use strict';
// Why no choice has the sources that are named: what the names and the structure of the test say of it.

const { inits, walks } = require('../text/tests.js');

// A path of an agent: its events by name, and of those that read how many bytes each.
class Way {
  constructor(agent, walk) {
    const events = walk.flatMap(({ event }) => (event ? [event] : []));
    this.events = new Map(events.map((event, place) => [`${agent}.${place}`, event]));
    this.sizes = new Map([...this.events].filter(([, { register }]) => register !== null).map(([name, { size }]) => [name, size]));
  }

  // Whether its reads are these, each with so many sources as bytes.
  fits(given) {
    return this.sizes.size === given.size && [...given].every(([name, sources]) => this.sizes.get(name) === sources.length);
  }

  // What is said of the reads that have no source here, with sources that they may have: the events that make their bytes.
  lacking(sources) {
    const names = [...this.sizes.keys()].filter((name) => !sources.has(name));
    const zeros = names.map((name) => `${name}=${this.events.get(name).bytes.map((byte) => `init[${byte}]`).join(',')}`).join(' ');
    return `${names.join(', ')} ${names.length === 1 ? 'has' : 'have'} no source, as in ${zeros}`;
  }

  // How well it fits these reads: those that it has without those that it hasn't, and then the fewer it has.
  rank(mine) {
    const names = [...mine.keys()];
    const had = names.filter((name) => this.sizes.has(name)).length;
    return 1000 * (2 * had - names.length) - this.sizes.size;
  }
}

// What is wrong where an agent has no path with these reads alone, each with a source for each of its bytes.
function wrongReads(ways, mine) {
  const way = ways.reduce((best, each) => (each.rank(mine) > best.rank(mine) ? each : best));
  if ([...way.sizes.keys()].some((name) => !mine.has(name))) return `${way.lacking(mine)}: each read needs one for each of its bytes`;
  const wrong = [...mine.keys()].find((name) => !way.sizes.has(name));
  if (wrong) return `${wrong} reads nothing on any path with the other reads given`;
  const [name, sources] = [...mine].find(([each, given]) => given.length !== way.sizes.get(each));
  return `${name} reads ${way.sizes.get(name)} bytes and has ${sources.length} sources: one for each byte, joined by commas`;
}

// What is wrong where a read's source writes the byte on no path; `written` has pairs of a name and a byte.
function wrongSource(ways, mine, written) {
  for (const [name, given] of mine) {
    for (const [place, source] of given.entries()) {
      const bytes = ways.map((way) => way.events.get(name).first + place);
      if (source === name) return `${name} is no source of its own`;
      if (!bytes.some((byte) => written.has(`${source} ${byte}`))) {
        return `${name} reads byte ${Math.min(...bytes)}, which ${source} does not write on any path with these reads`;
      }
    }
  }
  return null;
}

// What is said where no other fault is found: of a path with more reads too, where there is one.
function wrongValues(every, given) {
  for (const [agent, ways] of every) {
    const mine = given.get(agent);
    const longer = ways.filter((way) => way.sizes.size > mine.size && [...mine.keys()].every((name) => way.sizes.has(name)));
    if (longer.length) {
      const least = longer.reduce((one, other) => (other.sizes.size < one.sizes.size ? other : one));
      return `the values read don't allow the path of ${agent} that has these reads alone; on another one ${least.lacking(mine)}`;
    }
  }
  return "the values read don't allow the paths that have these reads";
}

// Why no choice has these sources, by the names of the reads.
function whyNone(test, sources) {
  const names = test.agents.map(({ name }) => name);
  const strange = [...sources.keys()].find((name) => !names.includes(name.split('.')[0]) || !/^\w+\.\d+$/.test(name));
  if (strange) return `${strange} is no access: the agents are ${names.join(', ')}, and ${names[0]}.0 is the first access of one`;
  const every = new Map(test.agents.map(({ name, statements }) => [name, walks(statements).map((walk) => new Way(name, walk))]));
  const given = new Map(names.map((agent) => [agent, new Map([...sources].filter(([name]) => name.startsWith(`${agent}.`)))]));
  const fitting = new Map(names.map((agent) => [agent, every.get(agent).filter((way) => way.fits(given.get(agent)))]));
  const none = names.find((agent) => fitting.get(agent).length === 0);
  if (none) return wrongReads(every.get(none), given.get(none));
  const events = [...inits(test.bytes).map((event) => [`init[${event.first}]`, event]),
    ...[...fitting.values()].flatMap((ways) => ways.flatMap((way) => [...way.events]))];
  const written = new Set(events.filter(([, { writes }]) => writes !== null)
    .flatMap(([name, { bytes }]) => bytes.map((byte) => `${name} ${byte}`)));
  const wrong = names.map((agent) => wrongSource(fitting.get(agent), given.get(agent), written)).find(Boolean);
  return wrong ?? wrongValues(every, given);
}

module.exports = { whyNone };
