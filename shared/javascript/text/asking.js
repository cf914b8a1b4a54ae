'use strict';
// The common slips of the line that asks: as those of slips.js, of the condition and of the names in it.

// The rules of the words and signs of a condition.
const spelled = (scene) => [
  [/^(?:~\s*exists|never|forbidden)\b\s*:?\s*/, 'check ', "the question is `check`; herd7's ~exists is the verdict never"],
  [/^(?:forall|always|assert)\b\s*:?\s*/, 'check ', "the question is `check`; herd7's forall is the verdict always"],
  [/^(?:exists|sometimes|condition|final|expect|assert|Check|CHECK|allowed)\b\s*:?\s*|^check\s*:\s*/, 'check ', 'the question is `check`'],
  [/\s*\/\\\s*/, ' && ', 'and is `&&`'],
  [/\s*\\\/\s*/, ' || ', 'or is `||`'],
  [/\band\b/, '&&', 'and is `&&`'],
  [/\bor\b/, '||', 'or is `||`'],
  [/\bnot\b|~/, '!', 'not is `!`'],
  [/=>|->(?!\s*r[0-7]\b)/, null, 'there is no `=>`: `a => b` is `!(a) || b`'],
  [/(?<!&)&(?!&)/, '&&', 'and is `&&`'],
  [/(?<!\|)\|(?!\|)/, '||', 'or is `||`'],
  [/(?<![\w.])P?(\d+)\s*[:.]\s*(r[0-7])\b/, ([, number, register]) => `${scene.agents[Number(number)] ?? 'NAME'}.${register}`,
    'a register is named by its agent, `A.r0`'],
  [/\b([A-Za-z_]\w*)\s*(?::|->|_)\s*(r[0-7])\b/, '$1.$2', 'a register is named by its agent, `A.r0`'],
  [/(?<=[\w)])\s*[-+*%^]\s*(?=[\w(])/, null, 'there is no arithmetic: write out the values, joined by `||`'],
  [/\s*(?<![=!<>])=(?!=)\s*/, ' == ', 'a comparison is `==` or `!=`'],
];

function rules(place) {
  const { scene } = place;
  const asked = scene.readers().map((agent) => `${agent}.${[...scene.usedBy(agent)].sort()[0] ?? 'r0'}`);
  if (asked.length === 0) asked.push('A.r0');
  const some = asked.slice(0, 3).join(' or ');
  return [...spelled(scene),
    [/(?<![.\w])(\d+)\s*(==|!=)\s*(\w+\.r[0-7])/, '$3 $2 $1', 'the register stands first'],
    [/\b([A-Za-z_]\w*)\.(?!r[0-7]\b)([A-Za-z_]\w*)/, (m) => `${m[1]}.${scene.named(m[1], m[2]) ?? m[2]}`, 'registers are named r0 to r7'],
    [/(?<![.\w])(?!check\b)([A-Za-z_]\w*)\b(?!\s*[.\[(])/, (m) => scene.asked(m[1]) ?? m[0],
      `registers are named with their agent, as ${asked[0]}`],
    [/\[\s*\w+\s*\]\s*==|U\d+\[\d+\]\s*[!=]=|Atomics|DV\.|\w\[\d+\]/, null,
      "what memory holds at the end can't be asked: load it into a register of an agent, and ask for that"],
    [/(?<![.\w])r[0-7]\b/, null, `registers are named with their agent, as ${some}`],
    [/(?<![.\w])(?!check\b)[A-Za-z_]\w*\b(?!\s*[.\[(])/, null,
      `registers are named with their agent, as ${some}; a name alone is none, and what memory holds at the end can't be asked`],
    [/\w+\.r\d\s*(?:==|!=)\s*\w+\.r\d/, null,
      'a register is compared with a number: `A.r0 == 0 && B.r0 == 0 || A.r0 == 1 && B.r0 == 1`'],
    [/[<>]/, null, 'comparisons are `==` and `!=` alone'],
    [/(\w+\.r\d)(?!\s*[=!]=)(?=\s*(?:$|&&|\|\||\)))/, '$1 != 0', 'a register is compared with a number'],
    [/^check\s*$/, `check ${asked[asked.length - 1]} == 0`, '`check` needs a condition'],
  ];
}

module.exports = { rules };
