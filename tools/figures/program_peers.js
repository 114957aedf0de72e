// What others do by @jridgewell/trace-mapping, for program.py: `node program_peers.js JOB ARGUMENT..` prints what the job found.
'use strict';
const fs = require('fs');
const path = require('path');
const {TraceMap, originalPositionFor, eachMapping} = require('@jridgewell/trace-mapping');

const FRAME = /^(.*?)(\/[^\s():]+):(\d+):(\d+)\)?$/;
const held = new Map();

function mapOf(code) {
  let map = held.get(code);
  if (map === undefined) held.set(code, (map = new TraceMap(fs.readFileSync(`${code}.map`, 'utf8'), path.dirname(code))));
  return map;
}

/** Frames of standard input, a line each, in original positions. */
function resolve(root) {
  const lines = require('readline').createInterface({input: process.stdin, crlfDelay: Infinity});
  let out = [];
  lines.on('line', (line) => {
    const found = FRAME.exec(line);
    const at = found && originalPositionFor(mapOf(path.join(root, found[2])), {line: Number(found[3]), column: found[4] - 1});
    out.push(at && at.source !== null ? `${at.source}:${at.line}:${at.column + 1}` : line);
    if (out.length < 10000) return;
    process.stdout.write(`${out.join('\n')}\n`);
    out = [];
  });
  lines.on('close', () => out.length && process.stdout.write(`${out.join('\n')}\n`));
}

/** The bytes of each source of a code: a mapping has those up to the next one on its line. */
function size(code) {
  const lines = fs.readFileSync(code, 'utf8').split('\n');
  const bytes = {};
  let last = null;
  const add = (end) => {
    const text = lines[last.generatedLine - 1].slice(last.generatedColumn, end);
    if (last.source !== null) bytes[last.source] = (bytes[last.source] || 0) + Buffer.byteLength(text);
  };
  eachMapping(mapOf(code), (mapping) => {
    if (last !== null) add(mapping.generatedLine === last.generatedLine ? mapping.generatedColumn : undefined);
    last = mapping;
  });
  if (last !== null) add(undefined);
  console.log(JSON.stringify(bytes));
}

/** The offsets at which the lines of a text begin. */
function startsOf(text) {
  const starts = [0];
  for (let at = text.indexOf('\n'); at >= 0; at = text.indexOf('\n', at + 1)) starts.push(at + 1);
  return starts;
}

/** The greatest index of a start that is not behind an offset. */
function lineOf(starts, offset) {
  let low = 0;
  let high = starts.length - 1;
  while (low < high) {
    const middle = (low + high + 1) >> 1;
    if (starts[middle] <= offset) low = middle;
    else high = middle - 1;
  }
  return low;
}

/** Lines that did not run, by the two ends of each of V8's ranges, as v8-to-istanbul does. */
function coverage(code, report) {
  const text = fs.readFileSync(code, 'utf8');
  const starts = startsOf(text);
  const map = mapOf(code);
  const sources = new Map(map.sources.map((source, at) => [source, startsOf(map.sourcesContent[at]).map(() => 1)]));
  const original = (offset) => {
    const line = lineOf(starts, offset);
    return originalPositionFor(map, {line: line + 1, column: offset - starts[line]});
  };
  const script = JSON.parse(fs.readFileSync(report, 'utf8')).result.find((it) => it.url.endsWith(`/${path.basename(code)}`));
  for (const {ranges} of script.functions) {
    for (const {startOffset, endOffset, count} of ranges) {
      const [begin, end] = [original(startOffset), original(Math.max(startOffset, endOffset - 1))];
      if (begin.source === null || begin.source !== end.source) continue;
      const lines = sources.get(begin.source);
      for (let line = begin.line - 1; line < end.line; line++) lines[line] = count;
    }
  }
  for (const [source, lines] of sources) console.log(source, lines.filter((it) => it === 0).length);
}

({resolve, size, coverage})[process.argv[2]](...process.argv.slice(3));
