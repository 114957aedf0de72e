#!/usr/bin/env node
// browser.js BROWSER PACKAGE MAP..   opens the page of the example in a headless browser, over the folder PACKAGE that ./build wasm left, and compares
// what the page and the package say there with what the package says in Node. BROWSER is chromium, firefox or another name of one of them.
'use strict';

const assert = require('node:assert/strict');
const { spawn } = require('node:child_process');
const { createHash } = require('node:crypto');
const { existsSync, mkdtempSync, readFileSync, rmSync } = require('node:fs');
const http = require('node:http');
const { tmpdir } = require('node:os');
const { join, extname } = require('node:path');

const [, , browser, folder, ...maps] = process.argv;
const EXAMPLE = join(__dirname, '../example');
const TYPES = { '.wasm': 'application/wasm', '.js': 'text/javascript', '.mjs': 'text/javascript', '.html': 'text/html; charset=utf-8', '.map': 'application/json' };
const MINUTES = 2;

/** The page, with the script that tests it. */
function page() {
  const text = readFileSync(join(EXAMPLE, 'index.html'), 'utf8');
  return text.replace('</head>', '<script type="module" src="./in_browser.mjs"></script></head>');
}

/** The file of a path, or null. */
function fileOf(path) {
  const map = /^\/map\/(\d+)$/.exec(path);
  if (map) return maps[Number(map[1])] ?? null;
  const served = /^\/junketscarp\/([\w.]+)$/.exec(path);
  const file = served ? join(folder, served[1]) : path === '/in_browser.mjs' ? join(__dirname, 'in_browser.mjs') : path === '/example.js' ? join(EXAMPLE, 'example.js') : null;
  return file !== null && existsSync(file) ? file : null;
}

function serve(request, response, report) {
  const path = request.url.split('?')[0];
  if (path === '/') return void response.setHeader('content-type', TYPES['.html']).end(page());
  if (path === '/maps') return void response.end(JSON.stringify({ count: maps.length }));
  if (path === '/report') {
    let body = '';
    request.on('data', (it) => (body += it)).on('end', () => (response.end(), report(JSON.parse(body))));
    return;
  }
  const file = fileOf(path);
  if (file === null) return void response.writeHead(404).end();
  response.setHeader('content-type', TYPES[extname(file)] ?? 'application/octet-stream').end(readFileSync(file));
}

function wordsOf(profile, url) {
  if (/firefox/.test(browser)) return ['--headless', '--no-remote', '--profile', profile, url];
  return ['--headless=new', '--no-sandbox', '--disable-gpu', '--no-first-run', `--user-data-dir=${profile}`, url];
}

/** What the page reports, or an error after some minutes. */
async function reported() {
  const profile = mkdtempSync(join(tmpdir(), 'browser-'));
  const server = http.createServer();
  await new Promise((resolve) => server.listen(0, '127.0.0.1', resolve));
  const url = `http://127.0.0.1:${server.address().port}/`;
  const child = spawn(browser, wordsOf(profile, url), { stdio: 'ignore', detached: true, env: { ...process.env, HOME: profile } });
  try {
    return await new Promise((resolve, reject) => {
      server.on('request', (request, response) => serve(request, response, resolve));
      child.on('error', reject);
      setTimeout(() => reject(new Error(`${browser} reports nothing in ${MINUTES} minutes`)), MINUTES * 60_000).unref();
    });
  } finally {
    process.kill(-child.pid, 'SIGKILL');
    server.close();
    server.closeAllConnections();
    await new Promise((resolve) => setTimeout(resolve, 300));
    rmSync(profile, { recursive: true, force: true, maxRetries: 5 });
  }
}

// ---- the same in Node ----

const sha = (bytes) => createHash('sha256').update(new Uint8Array(bytes.buffer, bytes.byteOffset, bytes.byteLength)).digest('hex');
const TEXT = '{"version":3,"sources":["a.ts"],"names":["f"],"mappings":"AAEA,IAAIA"}';

function asks({ SourceMap }, bytes) {
  let map;
  try {
    map = new SourceMap(bytes);
  } catch (error) {
    return { code: error.code, message: error.message, place: error.placeMessage };
  }
  const positions = Uint32Array.from({ length: 2000 }, (_, i) => (i % 2 === 0 ? (i * 7919) % 300 : (i * 104_729) % 500));
  const remapped = map.remap([[map.sources[0] ?? '', new SourceMap(TEXT)]]);
  const parts = [map.toBytes(), map.traceAll(positions), map.tokens(), remapped.toBytes(), Buffer.from(map.sources[0] ?? ''),
    SourceMap.join([{ map, line: 0 }, { map: remapped, line: 100_000 }]).toBytes()];
  return { answers: parts.map(sha), traced: remapped.trace(1, 1) };
}

async function main() {
  const said = await reported();
  if (said.error) throw new Error(said.error);
  const { loadSync } = await import(join(folder, 'load.mjs'));
  const library = loadSync(readFileSync(join(folder, 'oxc_sourcemap.wasm')));
  assert.deepEqual(said.maps, maps.map((it) => JSON.parse(JSON.stringify(asks(library, readFileSync(it))))));
  assert.deepEqual(said.page, ['a.ts, line 2, column 4, f', 'No token answers for this position.', 'JSON parsing error: the text is not JSON, at line 0, column 1 (byte 1)']);
  assert.deepEqual(said.violations, []);
  assert.equal(said.built, '{"version":3,"names":[],"sources":["größe.ts"],"mappings":"AAAA"}');
  assert.equal(said.kept, true);
  console.log(`${said.agent}: ${maps.length} maps say the same`);
  console.log(JSON.stringify(said.figures));
}

main().then(
  () => process.exit(0),
  (error) => {
    console.log(error.stack);
    process.exit(1);
  },
);
