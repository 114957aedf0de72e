'use strict';
// trace_all.js [--compiled] FILE.map: answers each line `LINE COLUMN` of standard input with two lines, what the map says of the position
// and what it says clamped: `nothing`, `unmapped`, or `SOURCE:LINE:COLUMN`, then a space and the name if there is one. With --compiled it
// says what the compiled map says. Ends with status 1 and a message if a call is refused or the map is not sorted.

const fs = require('node:fs');
const { Bias, CompiledMap, SourceMap } = require('./lib/index.js');

function textAt(map, line, column, bias) {
  const found = map.trace(line, column, bias);
  if (found === null) return map.traceToken(line, column, bias) === null ? 'nothing' : 'unmapped';
  const text = `${found.source}:${found.line}:${found.column}`;
  return found.name === null ? text : `${text} ${found.name}`;
}

function main(words) {
  const map = new SourceMap(fs.readFileSync(words.at(-1)));
  if (!map.isSorted) throw new Error('Tokens are not in order of line and column');
  const asked = words[0] === '--compiled' ? new CompiledMap(map.compile()) : map;
  const answers = [];
  for (const text of fs.readFileSync(0, 'utf8').split('\n').filter(Boolean)) {
    const [line, column] = text.split(' ').map(Number);
    for (const bias of [Bias.BEFORE, Bias.CLAMPED]) answers.push(textAt(asked, line, column, bias));
  }
  fs.writeFileSync(1, answers.map((it) => `${it}\n`).join(''));
}

try {
  main(process.argv.slice(2));
} catch (error) {
  console.error(error.message.replace(`, at ${error.placeMessage}`, ''));
  process.exitCode = 1;
}
