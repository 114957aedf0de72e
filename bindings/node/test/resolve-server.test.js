'use strict';
// The example that resolves over HTTP, with many clients at once, and what strangers send.

const test = require('node:test');
const assert = require('node:assert/strict');
const fs = require('node:fs');
const http = require('node:http');
const net = require('node:net');
const { spawn } = require('node:child_process');
const { once } = require('node:events');
const { join } = require('node:path');
const { tmpdir } = require('node:os');

const MAP = '{"version":3,"sourceRoot":"src","sources":["a.ts"],"names":["run"],"mappings":"AAAA,aACEA"}';
const TRACE = Buffer.concat([Buffer.from('Error: '), Buffer.from([0xff]), Buffer.from('\n    at f (http://h/app.js:1:14)\n    at g (http://h/no.js:1:1)\n')]);
const RESOLVED = Buffer.from(TRACE.toString('latin1').replace('http://h/app.js:1:14', 'src/a.ts:2:3'), 'latin1');
const url = {};
let server;

test.before(async () => {
  const room = fs.mkdtempSync(join(tmpdir(), 'junketscarp-'));
  process.once('exit', () => fs.rmSync(room, { recursive: true }));
  fs.mkdirSync(join(room, 'maps'));
  fs.writeFileSync(join(room, 'maps/app.js.map'), MAP);
  fs.mkdirSync(join(room, 'node_modules'));
  fs.symlinkSync(join(__dirname, '..'), join(room, 'node_modules/junketscarp'));
  fs.copyFileSync(join(__dirname, '../examples/resolve-server.js'), join(room, 'server.js'));
  const env = { ...process.env, SECONDS: '4' };
  server = spawn(process.execPath, ['server.js', 'maps', 'http://h/'], { cwd: room, env, stdio: ['ignore', 'pipe', 'inherit'] });
  const [said] = await once(server.stdout, 'data');
  Object.assign(url, { port: Number(/:(\d+)\//.exec(said)[1]) });
});
test.after(() => server.kill());

/** What a request of a connection of its own is answered. */
async function asked(method, path, body) {
  const request = http.request({ host: '127.0.0.1', port: url.port, method, path, agent: false }).end(body);
  const [answer] = await once(request, 'response');
  const parts = [];
  for await (const part of answer) parts.push(part);
  return [answer.statusCode, Buffer.concat(parts)];
}

/** What comes back to these bytes, until the connection is closed. */
function sent(bytes) {
  return new Promise((resolve) => {
    const said = [];
    const socket = net.connect(url.port, '127.0.0.1', () => socket.write(bytes));
    socket.on('data', (it) => said.push(it)).on('error', () => {}).on('close', () => resolve(Buffer.concat(said).toString('latin1'))); // prettier-ignore
  });
}

test('what is answered', async () => {
  assert.deepEqual(await asked('POST', '/', TRACE), [200, RESOLVED]);
  const [status, frames] = await asked('POST', '/frames', TRACE);
  const found = { url: 'http://h/app.js', line: 1, column: 14, source: 'src/a.ts', sourceLine: 1, sourceColumn: 2, name: 'run' };
  assert.deepEqual([status, JSON.parse(frames)], [200, [found, { url: 'http://h/no.js', line: 1, column: 1, reason: 'not there' }]]);
  const stats = String((await asked('GET', '/stats'))[1]);
  assert.match(stats, /^(?:# TYPE (resolver_[a-z_]+) (?:counter|gauge)\n(?:\1(?:\{reason="[a-z ]+"\})? \d+\n)+)+$/);
  assert.deepEqual(stats.match(/# TYPE resolver_held .*\nresolver_held /g), ['# TYPE resolver_held gauge\nresolver_held ']);
  for (const it of ['hits_total', 'not_resolved_total']) assert.equal(stats.split(`# TYPE resolver_${it} counter\n`).length, 2);
  assert.match(stats, /\nresolver_not_resolved_total\{reason="not there"\} [1-9]/);
  for (const it of [['GET', '/'], ['GET', '/x'], ['POST', '/stats', '']]) assert.equal((await asked(...it))[0], 404);
});

test('many clients at once', async () => {
  const client = async () => {
    for (let k = 0; k < 3; k++) assert.deepEqual(await asked('POST', '/', TRACE), [200, RESOLVED]);
  };
  await Promise.all(Array.from({ length: 100 }, client));
});

test('hostile bodies', async () => {
  const head = 'POST / HTTP/1.1\r\nHost: h\r\nConnection: close\r\nContent-Length: ';
  assert.equal((await asked('POST', '/', ' '.repeat(2 ** 20)))[0], 200);
  assert.match(await sent(`${head}1048577\r\n\r\n`), / 413 /);
  for (const length of ['-1', '1e3', '9'.repeat(5000)]) assert.match(await sent(`${head}${length}\r\n\r\n`), / 4(?:00|13) /, length);
  const chunk = `100000\r\n${' '.repeat(2 ** 20)}\r\n`;
  assert.doesNotMatch(await sent(`POST / HTTP/1.1\r\nHost: h\r\nTransfer-Encoding: chunked\r\n\r\n${chunk}${chunk}0\r\n\r\n`), / 200 /);
  const bodies = [`${'('.repeat(500_000)}:1:1`, 'f@http://h/app.js:1:1\n'.repeat(40_000), `    at ${'x'.repeat(900_000)}:1:1`, Buffer.alloc(1_000_000, 0xe9)];
  for (const body of bodies) assert.equal((await asked('POST', '/', body))[0], 200);
  assert.deepEqual(await asked('POST', '/', TRACE), [200, RESOLVED]);
});

test('slow clients are hung up on', async () => {
  const start = Date.now();
  const slow = ['POST / HTTP/1.1\r\nHost: h\r\nConten', 'POST / HTTP/1.1\r\nHost: h\r\nContent-Length: 9\r\n\r\nabc', ''];
  for (const said of await Promise.all(slow.map(sent))) assert.doesNotMatch(said, / 200 /);
  assert.ok(Date.now() - start < 30_000);
  assert.deepEqual(await asked('POST', '/', TRACE), [200, RESOLVED]);
});
