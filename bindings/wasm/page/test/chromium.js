'use strict';
// Drives Chromium by its DevTools protocol, over a pipe.

const { spawn } = require('node:child_process');
const { mkdtempSync, rmSync } = require('node:fs');
const { tmpdir } = require('node:os');
const { join } = require('node:path');

const KEYS = { ArrowLeft: 37, ArrowUp: 38, ArrowRight: 39, ArrowDown: 40, Home: 36, End: 35, Backspace: 8, Enter: 13, Tab: 9, Escape: 27, '/': 191 };

/** Messages over a pipe: each is JSON with a zero byte behind it. */
class Protocol {
  constructor(write, read) {
    Object.assign(this, { write, waiting: new Map(), last: 0, rest: '', events: [] });
    read.setEncoding('utf8').on('data', (it) => this.take(it));
  }

  take(chunk) {
    const parts = (this.rest + chunk).split('\0');
    this.rest = parts.pop();
    parts.map((it) => JSON.parse(it)).forEach((it) => this.answer(it));
  }

  answer(message) {
    if (message.id === undefined) return void this.events.push(message);
    const { resolve, reject } = this.waiting.get(message.id);
    this.waiting.delete(message.id);
    if (message.error) reject(new Error(message.error.message));
    else resolve(message.result);
  }

  send(method, params = {}, sessionId = undefined) {
    const id = ++this.last;
    this.write.write(`${JSON.stringify({ id, method, params, sessionId })}\0`);
    return new Promise((resolve, reject) => this.waiting.set(id, { resolve, reject }));
  }
}

class Chromium {
  static async start(program) {
    const it = new Chromium();
    it.profile = mkdtempSync(join(tmpdir(), 'chromium-'));
    const words = ['--headless=new', '--no-sandbox', '--disable-gpu', '--no-first-run', '--hide-scrollbars', '--remote-debugging-pipe', `--user-data-dir=${it.profile}`, 'about:blank'];
    it.child = spawn(program, words, { stdio: ['ignore', 'ignore', 'ignore', 'pipe', 'pipe'], detached: true, env: { ...process.env, HOME: it.profile } });
    it.protocol = new Protocol(it.child.stdio[3], it.child.stdio[4]);
    const { targetInfos } = await it.protocol.send('Target.getTargets');
    const { targetId } = targetInfos.find((target) => target.type === 'page');
    it.session = (await it.protocol.send('Target.attachToTarget', { targetId, flatten: true })).sessionId;
    for (const domain of ['Page', 'Network', 'Log', 'Runtime']) await it.send(`${domain}.enable`);
    return it;
  }

  send(method, params) {
    return this.protocol.send(method, params, this.session);
  }

  async look(width, height, isDark) {
    await this.send('Emulation.setDeviceMetricsOverride', { width, height, deviceScaleFactor: 1, mobile: false });
    await this.send('Emulation.setEmulatedMedia', { features: [{ name: 'prefers-color-scheme', value: isDark ? 'dark' : 'light' }] });
  }

  async open(url) {
    this.protocol.events.length = 0;
    await this.send('Page.navigate', { url });
  }

  async evaluate(expression) {
    const { result, exceptionDetails } = await this.send('Runtime.evaluate', { expression, returnByValue: true, awaitPromise: true });
    if (exceptionDetails) throw new Error(exceptionDetails.exception?.description ?? exceptionDetails.text);
    return result.value;
  }

  move(x, y) {
    return this.send('Input.dispatchMouseEvent', { type: 'mouseMoved', x, y });
  }

  async click(x, y) {
    for (const type of ['mousePressed', 'mouseReleased']) await this.send('Input.dispatchMouseEvent', { type, x, y, button: 'left', clickCount: 1 });
  }

  async key(key, isShifted = false) {
    const text = key === 'Enter' ? '\r' : key.length === 1 ? key : undefined;
    const more = { key, windowsVirtualKeyCode: KEYS[key], modifiers: isShifted ? 8 : 0 };
    await this.send('Input.dispatchKeyEvent', { type: text ? 'keyDown' : 'rawKeyDown', text, ...more });
    await this.send('Input.dispatchKeyEvent', { type: 'keyUp', ...more });
  }

  type(text) {
    return this.send('Input.insertText', { text });
  }

  async screenshot() {
    const { data } = await this.send('Page.captureScreenshot', { format: 'png' });
    return Buffer.from(data, 'base64');
  }

  /** What the page asked for over the network, and what it logged. */
  complaints() {
    const of = (method) => this.protocol.events.filter((it) => it.method === method).map((it) => it.params);
    const asked = of('Network.requestWillBeSent').map((it) => it.request.url).filter((it) => !/^(file|data):/.test(it));
    return [...asked, ...of('Log.entryAdded').map((it) => it.entry.text), ...of('Runtime.exceptionThrown').map((it) => it.exceptionDetails.text)];
  }

  async stop() {
    process.kill(-this.child.pid, 'SIGKILL');
    await new Promise((resolve) => setTimeout(resolve, 300));
    rmSync(this.profile, { recursive: true, force: true, maxRetries: 5 });
  }
}

module.exports = { start: Chromium.start };
