// What a browser does for browser.js, in the page of the example: the page itself is used, then the package over the maps of the server. Then
// it posts what it found.
import { SourceMap, SourceMapBuilder } from './junketscarp/index.mjs';

const hex = (buffer) => Array.from(new Uint8Array(buffer), (it) => it.toString(16).padStart(2, '0')).join('');
const digest = async (bytes) => hex(await crypto.subtle.digest('SHA-256', bytes));

const TEXT = '{"version":3,"sources":["a.ts"],"names":["f"],"mappings":"AAEA,IAAIA"}';

/** Fills in the form of the page and reads its answer. */
function usesPage(text, line, column) {
  const element = (id) => document.getElementById(id);
  element('text').value = text;
  element('line').value = line;
  element('column').value = column;
  document.querySelector('button').click();
  return element('answer').value;
}

async function asks(bytes) {
  let map;
  try {
    map = new SourceMap(bytes);
  } catch (error) {
    return { code: error.code, message: error.message, place: error.placeMessage };
  }
  const positions = Uint32Array.from({ length: 2000 }, (_, i) => (i % 2 === 0 ? (i * 7919) % 300 : (i * 104_729) % 500));
  const own = new TextEncoder().encode(map.sources[0] ?? '');
  const remapped = map.remap([[map.sources[0] ?? '', new SourceMap(TEXT)]]);
  const parts = [map.toBytes(), map.traceAll(positions), map.tokens(), remapped.toBytes(), own, SourceMap.join([{ map, line: 0 }, { map: remapped, line: 100_000 }]).toBytes()];
  const answers = await Promise.all(parts.map((it) => digest(it.slice().buffer)));
  map.free();
  return { answers, traced: remapped.trace(1, 1) };
}

/** Least of some runs, in milliseconds. */
function least(run) {
  let out = Infinity;
  for (let i = 0; i < 10; i++) {
    const begin = performance.now();
    run();
    out = Math.min(out, performance.now() - begin);
  }
  return Math.round(out * 100) / 100;
}

function figures(bytes) {
  const map = new SourceMap(bytes);
  const positions = Uint32Array.from({ length: 200_000 }, (_, i) => (i % 2 === 0 ? (i * 7919) % 300 : (i * 104_729) % 500));
  return { bytes: bytes.length, read: least(() => new SourceMap(bytes).free()), lookups: least(() => map.traceAll(positions)), write: least(() => map.toBytes()) };
}

async function run(count) {
  const violations = [];
  document.addEventListener('securitypolicyviolation', (event) => violations.push(event.violatedDirective));
  const said = { agent: navigator.userAgent, violations, page: [usesPage(TEXT, 0, 5), usesPage(TEXT, 3, 0), usesPage('{', 0, 0)], maps: [] };
  for (let i = 0; i < count; i++) {
    const bytes = new Uint8Array(await (await fetch(`/map/${i}`)).arrayBuffer());
    said.maps.push(await asks(bytes));
    if (i === count - 1) said.figures = figures(bytes);
  }
  const kept = [];
  for (let i = 0; i < 500; i++) kept.push(new SourceMap(TEXT));
  for (let i = 0; i < 3000; i++) new SourceMap(TEXT).trace(0, 5);
  said.kept = kept.every((map) => map.trace(0, 5).name === 'f');
  const builder = new SourceMapBuilder();
  builder.addToken(0, 0, 0, 0, builder.addSource('größe.ts'));
  said.built = builder.finish().toString();
  return said;
}

const { count } = await (await fetch('/maps')).json();
let said;
try {
  said = await run(count);
} catch (error) {
  said = { error: String(error?.stack ?? error) };
}
await fetch('/report', { method: 'POST', body: JSON.stringify(said) });
