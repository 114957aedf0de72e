'use strict';
// Drives Firefox by Marionette, its own form of WebDriver over a socket.

const { spawn } = require('node:child_process');
const { existsSync, mkdtempSync, readFileSync, rmSync, writeFileSync } = require('node:fs');
const net = require('node:net');
const { tmpdir } = require('node:os');
const { join } = require('node:path');

const KEYS = { ArrowLeft: '\ue012', ArrowUp: '\ue013', ArrowRight: '\ue014', ArrowDown: '\ue015', Home: '\ue011', End: '\ue010', Backspace: '\ue003', Enter: '\ue007', Tab: '\ue004', Escape: '\ue00c' };
const SHIFT = '\ue008';
const SECONDS = 60;

const sleep = (milliseconds) => new Promise((resolve) => setTimeout(resolve, milliseconds));

/** Messages over a socket: the length of each, a colon and JSON. */
class Protocol {
  constructor(socket) {
    Object.assign(this, { socket, waiting: new Map(), last: 0, rest: Buffer.alloc(0) });
    socket.on('data', (it) => this.take(it));
  }

  take(chunk) {
    this.rest = Buffer.concat([this.rest, chunk]);
    for (;;) {
      const colon = this.rest.indexOf(':');
      const length = Number(this.rest.subarray(0, Math.max(0, colon)).toString());
      if (colon < 0 || this.rest.length < colon + 1 + length) return;
      this.answer(JSON.parse(this.rest.subarray(colon + 1, colon + 1 + length).toString()));
      this.rest = this.rest.subarray(colon + 1 + length);
    }
  }

  answer(message) {
    if (!Array.isArray(message)) return;
    const [, id, error, result] = message;
    const { resolve, reject } = this.waiting.get(id);
    this.waiting.delete(id);
    if (error) reject(new Error(error.message));
    else resolve(result);
  }

  send(name, params = {}) {
    const id = ++this.last;
    const text = JSON.stringify([0, id, name, params]);
    this.socket.write(`${Buffer.byteLength(text)}:${text}`);
    return new Promise((resolve, reject) => this.waiting.set(id, { resolve, reject }));
  }
}

/** The port that Firefox writes into its profile. */
async function portOf(profile) {
  const file = join(profile, 'MarionetteActivePort');
  for (let i = 0; i < 10 * SECONDS && !existsSync(file); i++) await sleep(100);
  return Number(readFileSync(file, 'utf8'));
}

class Firefox {
  static async start(program) {
    const it = new Firefox();
    it.profile = mkdtempSync(join(tmpdir(), 'firefox-'));
    writeFileSync(join(it.profile, 'user.js'), 'user_pref("marionette.port", 0);\nuser_pref("ui.prefersReducedMotion", 1);\n');
    const words = ['--headless', '--no-remote', '--marionette', '--remote-allow-system-access', '--profile', it.profile];
    it.child = spawn(program, words, { stdio: 'ignore', detached: true, env: { ...process.env, HOME: it.profile } });
    const socket = net.connect(await portOf(it.profile), '127.0.0.1');
    it.protocol = new Protocol(socket);
    await it.send('WebDriver:NewSession', { capabilities: {} });
    return it;
  }

  send(name, params) {
    return this.protocol.send(name, params);
  }

  async look(width, height, isDark) {
    await this.send('Marionette:SetContext', { value: 'chrome' });
    const script = `Services.prefs.setIntPref('layout.css.prefers-color-scheme.content-override', ${isDark ? 0 : 1});`;
    await this.send('WebDriver:ExecuteScript', { script, args: [] });
    await this.send('Marionette:SetContext', { value: 'content' });
    await this.send('WebDriver:SetWindowRect', { width, height });
    const [inner, outer] = [await this.evaluate('[innerWidth, innerHeight]'), await this.evaluate('[outerWidth, outerHeight]')];
    await this.send('WebDriver:SetWindowRect', { width: width + outer[0] - inner[0], height: height + outer[1] - inner[1] });
  }

  open(url) {
    return this.send('WebDriver:Navigate', { url });
  }

  async evaluate(expression) {
    return (await this.send('WebDriver:ExecuteScript', { script: `return (${expression})`, args: [] })).value;
  }

  perform(...actions) {
    return this.send('WebDriver:PerformActions', { actions });
  }

  pointer(...actions) {
    return this.perform({ type: 'pointer', id: 'mouse', parameters: { pointerType: 'mouse' }, actions });
  }

  move(x, y) {
    return this.pointer({ type: 'pointerMove', duration: 0, origin: 'viewport', x: Math.round(x), y: Math.round(y) });
  }

  click() {
    return this.pointer({ type: 'pointerDown', button: 0 }, { type: 'pointerUp', button: 0 });
  }

  async key(key, isShifted = false) {
    const value = KEYS[key] ?? key;
    const pressed = [{ type: 'keyDown', value }, { type: 'keyUp', value }];
    const all = isShifted ? [{ type: 'keyDown', value: SHIFT }, ...pressed, { type: 'keyUp', value: SHIFT }] : pressed;
    await this.perform({ type: 'key', id: 'keys', actions: all });
  }

  async type(text) {
    for (const value of text) await this.key(value);
  }

  async screenshot() {
    return Buffer.from((await this.send('WebDriver:TakeScreenshot', { full: false })).value, 'base64');
  }

  complaints() {
    return [];
  }

  async stop() {
    process.kill(-this.child.pid, 'SIGKILL');
    await sleep(300);
    rmSync(this.profile, { recursive: true, force: true, maxRetries: 5 });
  }
}

module.exports = { start: Firefox.start };
