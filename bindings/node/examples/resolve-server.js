'use strict';
// Resolves stack traces over HTTP.
//
//     node resolve-server.js FOLDER BASE [PORT]
//
// FOLDER has codes and maps, which traces name below the URL BASE. `POST /` of a trace answers with the trace resolved, as `POST /frames`
// with its frames as JSON, and `GET /stats` with counts, as Prometheus scrapes them. It listens on 127.0.0.1, and prints the URL.
//
// A client has SECONDS for all of its request. A trace that is too long is answered by 413, and a client above CLIENTS at once is hung up on.

const http = require('node:http');

const { BESIDE, Resolver, TooLargeError } = require('junketscarp/resolver');

const SECONDS = Number(process.env.SECONDS ?? 10);
const CLIENTS = 200;

/** All bytes of a request; null if there are more than the limit. */
async function bodyOf(request, limit) {
  if (Number(request.headers['content-length'] ?? 0) > limit) return null;
  const parts = [];
  let length = 0;
  for await (const part of request) {
    length += part.length;
    if (length > limit) return null;
    parts.push(part);
  }
  return Buffer.concat(parts);
}

/** A frame as JSON. Its own line and column count from 1, the others from 0. */
function frameOf({ frame: { url, line, column }, source, line: sourceLine, column: sourceColumn, name, reason }) {
  return reason === null ? { url, line, column, source, sourceLine, sourceColumn, name } : { url, line, column, reason };
}

const snake = (name) => name.replace(/[A-Z]/g, (it) => `_${it.toLowerCase()}`);

/** Counts as Prometheus scrapes them. Those of what is held may sink, all others only grow; reasons are labels. */
function metrics(counts) {
  const said = new Set();
  for (const [camel, count] of Object.entries(counts)) {
    const name = snake(camel);
    const [, reason] = /^not_resolved_(.*)/.exec(name) ?? [];
    const family = name.endsWith('held') ? name : `${reason ? 'not_resolved' : name}_total`;
    const label = reason ? `{reason="${reason.replace('_', ' ')}"}` : '';
    said.add(`# TYPE resolver_${family} ${family === name ? 'gauge' : 'counter'}\n`).add(`resolver_${family}${label} ${count}\n`);
  }
  return [...said].join('');
}

async function answer(resolver, request) {
  if (request.method === 'GET' && request.url === '/stats') return [200, metrics(resolver.stats())];
  if (request.method !== 'POST' || !['/', '/frames'].includes(request.url)) return [404, ''];
  const trace = await bodyOf(request, resolver.limits.traceBytes);
  if (trace === null) return [413, ''];
  if (request.url === '/') return [200, await resolver.resolveTextAsync(trace)];
  return [200, JSON.stringify((await resolver.resolveAsync(trace)).map(frameOf)), 'application/json'];
}

function serverOf(resolver) {
  const server = http.createServer({ connectionsCheckingInterval: 500 }, async (request, response) => {
    try {
      const [status, body, type = 'text/plain; charset=utf-8'] = await answer(resolver, request);
      const headers = { 'Content-Type': type, 'Content-Length': Buffer.byteLength(body), 'X-Content-Type-Options': 'nosniff' };
      response.writeHead(status, status === 413 ? { ...headers, Connection: 'close' } : headers).end(body);
    } catch (error) {
      if (!response.headersSent) response.writeHead(error instanceof TooLargeError ? 413 : 500);
      response.end();
    }
  });
  server.headersTimeout = 1000 * SECONDS;
  server.requestTimeout = 1000 * SECONDS;
  server.maxConnections = CLIENTS;
  // (a client that reads no answer)
  server.setTimeout(1000 * SECONDS);
  return server;
}

const [folder, base, port = '0'] = process.argv.slice(2);
const limits = { traceBytes: 2 ** 20, frames: 1000, seconds: SECONDS / 2 };
const server = serverOf(new Resolver(folder, base, { cache: BESIDE, limits }));
server.listen(Number(port), '127.0.0.1', () => console.log(`http://127.0.0.1:${server.address().port}/`));
