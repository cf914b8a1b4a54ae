'use strict';
// The words of a command, as its help tells them: docs/help/ has a line for each option, with what its value is called. S are seconds,
// N and MB a whole number, in the range and with the default that the line tells; else it is a text, and where there is no value a flag.

const os = require('os');
const { parseArgs } = require('util');
const { help, tellVersion, usage } = require('./command.js');
const { Failure, plain } = require('./lines.js');

const OPTION = /^ +--([a-z0-9-]+)(?: ([A-Z/]+))? +(.*)$/gm;
const WHOLE = /^[0-9]+$/;
const FORMS = { S: /^[0-9]+(?:\.[0-9]+)?$/, N: WHOLE, MB: WHOLE };
const RANGES = { S: [0.001, 999999], N: [1, 1e9], MB: [1, 1e9] };
const CORES = '[default: as many as there are cores]';

// The options of the help by their names.
const optionsIn = (text) => Object.fromEntries([...text.matchAll(OPTION)].map(([, name, value, said]) => {
  const [least, most] = /, (\d+) to (\d+)/.exec(said)?.slice(1).map(Number) ?? RANGES[value] ?? [];
  const [, number] = /\[default: (\d+)\]/.exec(said) ?? [];
  const initial = said.includes(CORES) ? os.cpus().length : number && FORMS[value] ? Number(number) : null;
  return [name, { value, least, most, initial: value ? initial : false }];
}));

// What a word means as the value of an option.
function meaning(word, name, { value, least, most }) {
  if (!FORMS[value]) return word;
  if (FORMS[value].test(word) && Number(word) >= least && Number(word) <= most) return Number(word);
  throw new Failure(2, `--${name} ${plain(word)}: a number ${value === 'S' ? 'of seconds ' : ''}from ${least} to ${most} is wanted`);
}

// What is said of words that aren't as they should be, in few words.
function faultOf({ code, message }) {
  const [, option] = /'(?:-[a-z], )?(-[^' ]*)/.exec(message) ?? [];
  return plain(code === 'ERR_PARSE_ARGS_UNKNOWN_OPTION' ? `no option ${option}` : message.split('\n')[0]);
}

function parted(given, options, many) {
  const kindOf = (name) => ({ type: options[name].value ? 'string' : 'boolean', multiple: many.includes(name) });
  const kinds = Object.fromEntries(Object.keys(options).map((name) => [name, kindOf(name)]));
  const args = given.map((word) => (word === '-h' ? '--help' : word));
  try {
    return parseArgs({ args, options: kinds, allowPositionals: true });
  } catch (error) {
    throw new Failure(2, faultOf(error));
  }
}

// The words of a command, with numbers for numbers, or null where help or version was the answer. Options of a list in `apart` don't go
// together, those in `many` may be given again and again, and of files there are `least` to `most`. Behind `--` all are files.
function readOptions(given, { apart = [], many = [], least = 0, most = Infinity } = {}) {
  const options = optionsIn(usage());
  const { values, positionals: paths } = parted(given, options, many);
  if (values.help || values.version) {
    (values.help ? help : tellVersion)();
    return null;
  }
  const words = Object.entries(options).map(([name, option]) => {
    if (values[name] === undefined) return [name, many.includes(name) ? [] : option.initial];
    return [name, typeof values[name] === 'string' ? meaning(values[name], name, option) : values[name]];
  });
  const both = apart.map((names) => names.filter((name) => values[name])).find(({ length }) => length > 1);
  if (both) throw new Failure(2, `--${both[0]} and --${both[1]} don't go together`);
  const wanted = most === 0 ? 'no file' : most === 1 ? 'one file' : 'a file';
  if (paths.length < least || paths.length > most) throw new Failure(2, `${wanted} is needed, and ${paths.length || 'none'} given`);
  return { ...Object.fromEntries(words), paths };
}

module.exports = { readOptions };
