'use strict';
// An example as a graph for Graphviz: a column for each agent with its accesses in their order, and edges from what is read.

const quoted = (text) => `"${text.replace(/["\\]/g, '\\$&').replace(/\n/g, '\\l')}\\l"`;

// `steps` are an execution in memory-order, `printer` says what each does; `title` stands above.
function drawingOf(title, steps, printer) {
  const agents = [...new Set(steps.map(({ agent }) => agent))];
  const lines = ['digraph execution {', '  node [shape=box, fontname="monospace", fontsize=10]',
    '  edge [fontname="monospace", fontsize=9]', `  label=${quoted(title)}`, '  labelloc=t'];
  const node = (step, place) => {
    const words = [`#${place + 1}  ${printer.at(step)}`, printer.code(step), printer.does({ ...step, from: [] })];
    return `  s${place} [label=${quoted(words.filter(Boolean).join('\n'))}]`;
  };
  agents.forEach((agent, column) => {
    const own = steps.map((step, place) => ({ step, place })).filter(({ step }) => step.agent === agent);
    lines.push(`  subgraph cluster_${column} {`, `  label=${quoted(agent)}`, ...own.map(({ step, place }) => node(step, place)));
    own.slice(1).forEach(({ place }, before) => lines.push(`  s${own[before].place} -> s${place} [color=grey]`));
    lines.push('  }');
  });
  const isStart = steps.some(({ from }) => from?.some((each) => each.start));
  if (isStart) lines.push('  start [label="what is there at the start", shape=plaintext]');
  steps.forEach(({ from }, place) => {
    for (const each of from ?? []) {
      const source = each.start ? 'start' : `s${each.step}`;
      const bytes = each.bytes === null ? '' : `, label="bytes ${each.bytes.join(' to ')}"`;
      if (each.start || each.step !== undefined) lines.push(`  ${source} -> s${place} [color=red, constraint=false${bytes}]`);
    }
  });
  return [...lines, '}'];
}

// Of an answer: the outcome that was named, or else the first that fails, or the first.
function drawn({ outcomes, examples, named }, printer) {
  const place = named ? 0 : Math.max(0, outcomes.findIndex(({ holds }) => !holds));
  const [outcome, example] = named ? [named.outcomes[0], named.outcomes[0]?.example] : [outcomes[place], examples[place]];
  return example ? drawingOf(`${outcome.text}${outcome.holds ? '' : '   FAILS'}`, example.steps, printer) : null;
}

module.exports = { drawn };
