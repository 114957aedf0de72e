'use strict';
// Maps for the benchmarks: the files that are named, or made ones; and positions in them.

const { readFileSync } = require('node:fs');
const { basename } = require('node:path');

const { SourceMap, NO_ID, encodeMappings } = require('..');
const { random } = require('../test/random.js');

/** A map as bundlers write them: so many tokens on so many lines, of so many sources and names, with contents of so many bytes. */
function made(count, lines, sourceCount, nameCount, bytes) {
  const next = random(count);
  const tokens = new Uint32Array(6 * count);
  const perLine = Math.ceil(count / lines);
  let column = 0;
  for (let i = 0; i < count; i++) {
    column = i % perLine === 0 ? 0 : column + 1 + next(9);
    const source = Math.floor((i * sourceCount) / count);
    const originalLine = Math.floor(i / 8) % 2000;
    tokens.set([Math.floor(i / perLine), column, originalLine, next(80), source, next(4) === 0 ? next(nameCount) : NO_ID], 6 * i);
  }
  const line = 'const value = call(first, second) || other.member;\n';
  const content = line.repeat(Math.ceil(bytes / sourceCount / line.length));
  const value = {
    version: 3,
    sources: Array.from({ length: sourceCount }, (_, i) => `src/module${i}.ts`),
    ...(bytes > 0 ? { sourcesContent: new Array(sourceCount).fill(content) } : {}),
    names: Array.from({ length: nameCount }, (_, i) => `name${i}`),
    mappings: encodeMappings(tokens),
  };
  return { next, tokens, value };
}

/** The text of a map with 1,000 names and a line of contents for eight tokens. */
const textOf = (count, lines, sourceCount) => Buffer.from(JSON.stringify(made(count, lines, sourceCount, 1000, 51 * (count / 8)).value));

/** Name and text of each map. */
function maps(paths) {
  if (paths.length > 0) return paths.map((path) => [basename(path), readFileSync(path)]);
  return [
    ['small', textOf(1000, 40, 3)],
    ['module', textOf(10_000, 400, 5)],
    ['bundle', textOf(350_000, 9000, 40)],
    ['one line', textOf(130_000, 1, 40)],
  ];
}

/** So many positions on lines that have tokens, up to 20 columns past the last. */
function positions(text, count) {
  const map = new SourceMap(text);
  const tokens = map.tokens();
  const next = random(1);
  const last = new Map();
  for (let i = 0; i < tokens.length; i += 6) last.set(tokens[i], tokens[i + 1]);
  const lines = [...last.keys()];
  const out = new Uint32Array(2 * count);
  for (let i = 0; i < count; i++) {
    out[2 * i] = lines[next(lines.length)];
    out[2 * i + 1] = next(last.get(out[2 * i]) + 21);
  }
  return out;
}

module.exports = { made, maps, positions };
