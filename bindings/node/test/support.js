'use strict';
// What the tests share: a map worked by hand, a writer of mappings and lookups that share no code with the library, random maps by seed,
// and the peers, where they are installed.

const { readFileSync, readdirSync, existsSync } = require('node:fs');
const { join } = require('node:path');
const assert = require('node:assert/strict');

const { NO_ID, SourceMapError } = require('..');
const { Code } = require('../lib/constants.js');
const native = require('../lib/native.js');
const { random } = require('./random.js');

const MAP = {
  version: 3,
  file: 'out.js',
  sourceRoot: 'src/',
  names: ['hi', 'größe'],
  sources: ['a.ts', 'b.ts'],
  sourcesContent: ['let hi;', null],
  ignoreList: [1],
  mappings: 'AAAA,GAASA,K;CCCTC',
  debugId: 'd-1',
};
const TEXT = JSON.stringify(MAP);

// The tokens of that map: the third has no source.
const TOKENS = [
  [0, 0, 0, 0, 0, NO_ID],
  [0, 3, 0, 9, 0, 0],
  [0, 8, 0, 9, NO_ID, NO_ID],
  [1, 1, 1, 0, 1, 1],
];
const flat = (tokens) => Uint32Array.from(tokens.flat());

/** The text of a map with these mappings. */
function simple(mappings, more = {}) {
  return JSON.stringify({ version: 3, sources: ['a.js'], names: [], mappings, ...more });
}

/** Asserts that a call throws a SourceMapError with these properties. */
function fails(properties, call) {
  assert.throws(call, (error) => {
    assert.ok(error instanceof SourceMapError, String(error?.stack));
    assert.equal(error.name, 'SourceMapError');
    for (const [name, value] of Object.entries(properties)) assert.deepEqual(error[name], value, name);
    return true;
  });
}

// ---- mappings, by what ECMA-426 says of them ----

const DIGITS = 'ABCDEFGHIJKLMNOPQRSTUVWXYZabcdefghijklmnopqrstuvwxyz0123456789+/';

function vlq(number) {
  let rest = number < 0 ? 2 * -number + 1 : 2 * number;
  let out = '';
  do {
    const digit = rest % 32;
    rest = Math.floor(rest / 32);
    out += DIGITS[rest > 0 ? digit + 32 : digit];
  } while (rest > 0);
  return out;
}

/** The mappings text of tokens. */
function mappingsOf(tokens) {
  let out = '';
  let [line, column, source, originalLine, originalColumn, name] = [0, 0, 0, 0, 0, 0];
  let isFirst = true;
  for (const [l, c, ol, oc, s, n] of tokens) {
    if (l > line) {
      out += ';'.repeat(l - line);
      [line, column, isFirst] = [l, 0, true];
    }
    out += (isFirst ? '' : ',') + vlq(c - column);
    isFirst = false;
    column = c;
    if (s === NO_ID) continue;
    out += vlq(s - source) + vlq(ol - originalLine) + vlq(oc - originalColumn);
    [source, originalLine, originalColumn] = [s, ol, oc];
    if (n === NO_ID) continue;
    out += vlq(n - name);
    name = n;
  }
  return out;
}

/** The index of the token that answers for a position, by the words of the documentation; -1 if there is none. */
function found(tokens, line, column, bias) {
  const on = tokens.map((token, index) => ({ column: token[1], index, line: token[0] })).filter((it) => it.line === line);
  const at = on.filter((it) => it.column === column);
  const before = on.filter((it) => it.column < column);
  const after = on.filter((it) => it.column > column);
  if (bias === 2) return (at.at(-1) ?? after[0])?.index ?? -1;
  return (at[0] ?? before.at(-1) ?? (bias === 1 ? on[0] : undefined))?.index ?? -1;
}

// ---- random maps ----

/** Tokens in order, some of them at one position, without a source or without a name. One without a source has the original position
 *  of the token before, as the library reads it. */
function randomTokens(next, sources, names) {
  const tokens = [];
  let [line, column, originalLine, originalColumn] = [0, 0, 0, 0];
  for (let count = next(60); count > 0; count--) {
    if (next(5) === 0) [line, column] = [line + 1 + next(3), 0];
    column += next(7);
    const isMapped = next(8) > 0;
    const isNamed = isMapped && names > 0 && next(3) === 0;
    if (isMapped) [originalLine, originalColumn] = [next(20), next(30)];
    tokens.push([line, column, originalLine, originalColumn, isMapped ? next(sources) : NO_ID, isNamed ? next(names) : NO_ID]);
  }
  return tokens;
}

const WORDS = ['a', 'größe', '😀', '日本', '', '"', '\\', '\u0000', 'x.y'];

/** A random map by its tokens and its JSON value. */
function randomMap(seed) {
  const next = random(seed);
  const sources = Array.from({ length: 1 + next(4) }, (_, i) => `s${i}.js`);
  const names = Array.from({ length: next(5) }, (_, i) => `${WORDS[next(WORDS.length)]}${i}`);
  const tokens = randomTokens(next, sources.length, names.length);
  const sourcesContent = sources.map(() => (next(3) === 0 ? null : WORDS[next(WORDS.length)]));
  const json = { version: 3, names, sources, mappings: mappingsOf(tokens) };
  return { tokens, json: sourcesContent.some((it) => it !== null) ? { ...json, sourcesContent } : json };
}

/** Positions at tokens, beside them, and past them. */
function positionsOf(tokens, next, count = 60) {
  const lines = (tokens.at(-1)?.[0] ?? 0) + 3;
  return Array.from({ length: count }, () => {
    if (tokens.length === 0 || next(3) === 0) return [next(lines), next(40)];
    const [line, column] = tokens[next(tokens.length)];
    return [line, Math.max(0, column + next(3) - 1)];
  });
}

// ---- what is installed, and what the repository has ----

/** A package, or null. */
function peer(name) {
  try {
    return require(name);
  } catch {
    return null;
  }
}

/** Options of a test that needs a peer. */
function needs(name, it) {
  return { skip: it === null && `there is no ${name}` };
}

const REPOSITORY = join(__dirname, '../../..');
const REAL = join(REPOSITORY, 'tests/real-maps');

/** The maps of the repository that are read, and those that are refused, each with its path. */
function realMaps() {
  if (!existsSync(REAL)) return [];
  const refused = JSON.parse(readFileSync(join(REAL, 'refused.json'), 'utf8'));
  const paths = readdirSync(REAL, { recursive: true }).filter((path) => path.endsWith('.map'));
  return paths.map((path) => ({ path, bytes: readFileSync(join(REAL, path)), refused: refused[path] ?? null }));
}

/** Whether the tests run over a WebAssembly module, and not over an addon; and the options of a test over maps that threads share. */
const isModule = native.share(native.fromJson(TEXT)) === Code.NO_THREADS;
const sharing = { skip: isModule && 'a WebAssembly module shares no maps' };

module.exports = {
  isModule,
  sharing,
  MAP,
  TEXT,
  TOKENS,
  REPOSITORY,
  flat,
  simple,
  fails,
  mappingsOf,
  found,
  random,
  randomMap,
  positionsOf,
  peer,
  needs,
  realMaps,
};
