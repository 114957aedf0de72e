// Compiled by tsc --strict, and not run: the types of the drop-in modules, as callers use them.

import {
  AnyMap,
  FlattenMap,
  GREATEST_LOWER_BOUND,
  TraceMap,
  decodedMap,
  eachMapping,
  encodedMap,
  mends,
  originalPositionFor,
  presortedDecodedMap,
  traceSegment,
  type EachMapping,
  type SourceMapInput,
} from '../compat/trace-mapping';
import {
  GenMapping,
  addMapping,
  addSegment,
  allMappings,
  fromMap,
  maybeAddMapping,
  setIgnore,
  toDecodedMap,
  toEncodedMap,
} from '../compat/gen-mapping';
import { decode, encode } from '../compat/sourcemap-codec';
import remapping = require('../compat/remapping');
import * as both from '../compat/jridgewell-source-map';
import * as later from '../compat/source-map-async';
import * as convert from '../compat/convert-source-map';
import { install, mapSourcePosition } from '../compat/source-map-support';
import { SourceMapGenerator } from '../compat/source-map-js';

const map = new TraceMap('', null);
const part = { version: 3, names: [], sources: [null], mappings: 'A' } as const;
const joined: TraceMap = AnyMap({ version: 3, sections: [{ offset: { line: 0, column: 0 }, map: part }] });
const same: TraceMap = new FlattenMap(joined);

const found = originalPositionFor(same, { line: 1, column: 2, bias: GREATEST_LOWER_BOUND });
if (found.source !== null) {
  const line: number = found.line;
  void line;
}
eachMapping(map, (mapping: EachMapping) => mapping.generatedLine);
const column: number | undefined = traceSegment(map, 1, 2)?.[0];
const kind: string | undefined = mends(map)[0]?.kind;
new TraceMap(encodedMap(map));
void [column, kind, decodedMap(map).mappings];
presortedDecodedMap({ version: 3, names: [], sources: [], mappings: [[[1], [1, 0, 0, 0]]] });

const made = new GenMapping({ file: 'x' });
addMapping(made, { generated: { line: 1, column: 0 } });
addMapping(made, { generated: { line: 1, column: 0 }, source: 'a', original: { line: 1, column: 2 }, name: 'x' });
addSegment(made, 0, 0);
addSegment(made, 0, 0, 'a', 1, 2, 'x', 'content');
maybeAddMapping(made, { generated: { line: 1, column: 0 } });
setIgnore(made, 'a');
const name: string | undefined = allMappings(fromMap(toDecodedMap(made)))[0]?.name;
new TraceMap(toDecodedMap(made));

const text: string = encode(decode('AAAA'));
const loader: remapping.SourceMapLoader = (file, context) => {
  context.content = file;
  return null;
};
const result = remapping([map, 'x'], loader, { exact: true });
const input: SourceMapInput = result.toString();
const raw: remapping.RawSourceMap = toEncodedMap(made);
remapping(input, () => undefined, true);

const consumer = new both.SourceMapConsumer(text, null);
const itsName: string | null = consumer.originalPositionFor({ line: 1, column: 0 }).name;
const made2 = both.SourceMapGenerator.fromSourceMap(consumer);
made2.addMapping({ generated: { line: 1, column: 0 }, source: 'a', original: { line: 1, column: 0 } });
const itsMappings: string = made2.toJSON().mappings;
async function promised(): Promise<number | null> {
  const one: later.SourceMapConsumer = await new later.SourceMapConsumer(text);
  one.destroy();
  return later.SourceMapConsumer.with(text, null, (it) => it.originalPositionFor({ line: 1, column: 0 }).line);
}
const converter: convert.Converter | null = convert.fromSource(text);
const read: Promise<convert.Converter> = convert.fromMapFileComment(text, async () => '{}');
const comment: string | undefined = converter?.setProperty('file', 'a').toComment({ multiline: true });
install({ retrieveSourceMap: (source) => ({ url: source, map: {} }), environment: 'node' });
const line: number = mapSourcePosition({ source: 'a', line: 1, column: 0 }).line;
new SourceMapGenerator({ file: 'a', ignoreInvalidMapping: true });
void [itsName, itsMappings, promised, read, comment, line];
// @ts-expect-error a consumer is a promise
new later.SourceMapConsumer(text).destroy();
// @ts-expect-error the generated position is missing
addMapping(made, { source: 'a' });
void [name, text, raw];
