'use strict';
// A resolver of stack traces for servers: codes and maps of a store, compiled and held within bounds.

const fs = require('node:fs');

const { optionsOf, shown: word } = require('./arguments.js');
const { Compiler } = require('./resolver/compiling.js');
const { Lines } = require('./resolver/contexts.js');
const { Finder, debugIdOf, outside } = require('./resolver/finding.js');
const { Bases, Folder, RefusedError, TooLargeError } = require('./resolver/stores.js');
const { Missing, Table, TimeOver } = require('./resolver/tables.js');
const { framesIn } = require('./resolver/traces.js');

const BESIDE = Symbol('beside');

const Reason = Object.freeze({
  OUTSIDE: 'outside',
  REFUSED: 'refused',
  NOT_THERE: 'not there',
  NO_MAP: 'no map',
  BAD_MAP: 'bad map',
  OTHER_BUILD: 'other build',
  TOO_LARGE: 'too large',
  NOTHING: 'nothing',
  UNMAPPED: 'unmapped',
  POSITION: 'position',
  FRAMES: 'frames',
  TIME: 'time',
  STORE: 'store',
});
const COUNTS = new Map(
  Object.values(Reason).map((it) => [it, `notResolved${it.replace(/(?:^| )(.)/g, (_, letter) => letter.toUpperCase())}`]),
);

const LIMITS = Object.freeze({
  traceBytes: 2 ** 20,
  frames: 1000,
  seconds: 10,
  codeBytes: 64 * 2 ** 20,
  mapBytes: 256 * 2 ** 20,
  heldBytes: 256 * 2 ** 20,
  heldMaps: 4096,
  heldMissing: 4096,
  heldSeconds: 60,
  heldContextBytes: 32 * 2 ** 20,
});
const OPTIONS = ['cache', 'limits', 'besideFirst', 'debugIdName', 'alwaysHashes', 'clock'];
const MOST_NAMES = 2048;
/** How many maps a trace has in use at once, whatever the table holds. */
const MOST_KNOWN = 64;
const MOST = 2 ** 32 - 1;
// As `sourcemap` prints no path: C0, DEL and C1, the marks of text direction, and quotes.
// eslint-disable-next-line no-control-regex
const HIDDEN = /[\x00-\x1f"\x7f-\x9f\u061c\u200e\u200f\u202a-\u202e\u2066-\u2069]/;
const UNESCAPED = /[\x7f-\x9f\u061c\u200e\u200f\u202a-\u202e\u2066-\u2069]/g;

function shown(source) {
  if (!HIDDEN.test(source)) return source;
  return JSON.stringify(source).replace(UNESCAPED, (it) => `\\u${it.charCodeAt(0).toString(16).padStart(4, '0')}`);
}

/** What a frame comes to. */
class Resolved {
  constructor(frame, reason, detail = '', map = null) {
    this.frame = frame;
    this.source = null;
    this.line = null;
    this.column = null;
    this.name = null;
    this.reason = reason;
    this.detail = detail;
    this.map = map;
    this.debugId = null;
  }

  get place() {
    return this.source === null ? null : `${shown(this.source)}:${this.line + 1}:${this.column + 1}`;
  }
}

function replaceFrames(text, frames) {
  let out = '';
  let last = 0;
  for (const { frame, place } of frames) {
    if (place === null) continue;
    out += text.slice(last, frame.start) + place;
    last = frame.end;
  }
  return out + text.slice(last);
}

/** Counts by their names. */
class Counts {
  #counts = new Map();

  add(name, count = 1) {
    this.#counts.set(name, this.get(name) + count);
  }

  get(name) {
    return this.#counts.get(name) ?? 0;
  }
}

/** The bytes of a trace as a string in which they all are told apart, and the way back. */
function readable(bytes) {
  try {
    const text = new TextDecoder('utf-8', { fatal: true, ignoreBOM: true }).decode(bytes);
    return { text, toBytes: (it) => Buffer.from(it) };
  } catch {
    // (each byte as a character: what is put in is its bytes)
    const latin1 = Buffer.from(bytes.buffer, bytes.byteOffset, bytes.byteLength).toString('latin1');
    return { text: latin1, toBytes: (it) => Buffer.from(it, 'latin1'), inBytes: (it) => Buffer.from(it).toString('latin1') };
  }
}

/** The lines of a content. Throws Missing if there is none. */
function linesOf(map, id) {
  const content = map.getSourceContent(id);
  if (content === null) throw new Missing('no content', '', false);
  return new Lines(content);
}

/** Refuses what is no line and column; which integers are, a frame says. */
function checkPosition(line, column) {
  if (!Number.isInteger(line)) throw new TypeError(`the line is ${word(line)}, and not an integer`);
  if (!Number.isInteger(column)) throw new TypeError(`the column is ${word(column)}, and not an integer`);
}

function limitsOf(given = {}) {
  for (const [name, limit] of Object.entries(given)) {
    if (!Object.hasOwn(LIMITS, name)) throw new TypeError(`there is no limit ${name}`);
    if (!(typeof limit === 'number' && limit >= 0)) throw new RangeError(`the limit ${name} is no number from 0 on`);
  }
  return Object.freeze({ ...LIMITS, ...given });
}

/** Runs steps that yield what they ask for: each is answered, or what it throws is thrown there. */
function runSteps(steps, answer) {
  let step = steps.next();
  while (!step.done) {
    let found;
    try {
      found = answer(step.value);
    } catch (error) {
      step = steps.throw(error);
      continue;
    }
    step = steps.next(found);
  }
  return step.value;
}

async function runStepsAsync(steps, answer) {
  let step = steps.next();
  while (!step.done) {
    let found;
    try {
      found = await answer(step.value);
    } catch (error) {
      step = steps.throw(error);
      continue;
    }
    step = steps.next(found);
  }
  return step.value;
}

class Resolver {
  #clock;
  #counts = new Counts();
  #bases;
  #finder;
  #maps;
  #contents;
  #names = new Map();

  constructor(store, base = '', options = {}) {
    const given = optionsOf(options, OPTIONS, 'Resolver');
    const { cache = null, limits, besideFirst = false, debugIdName = '{}.map', alwaysHashes = false } = given;
    const { clock = () => performance.now() / 1000 } = given;
    this.limits = limitsOf(limits);
    this.#clock = clock;
    if (typeof store !== 'string' && typeof store?.get !== 'function') throw new TypeError('the store is no path, and has no get');
    const found = typeof store === 'string' ? new Folder(store) : store;
    if (cache === BESIDE && !(found instanceof Folder)) throw new TypeError('compiled maps can be written beside the maps of a folder alone');
    if (typeof cache === 'string') fs.mkdirSync(cache, { recursive: true });
    this.#bases = new Bases(base);
    const how = { cache: typeof cache === 'string' ? cache : null, writesBeside: cache === BESIDE, alwaysHashes };
    const compiler = new Compiler(found, how, this.#counts);
    this.#finder = new Finder(found, this.#bases, compiler, this.limits, { besideFirst, debugIdName });
    const { heldBytes, heldMaps, heldMissing, heldSeconds, heldContextBytes, seconds } = this.limits;
    this.#maps = new Table({ size: heldBytes, entries: heldMaps, missing: heldMissing, seconds: heldSeconds, patience: seconds }, clock);
    this.#contents = new Table({ size: heldContextBytes, entries: 4096, missing: 0, seconds: 1e9 }, clock);
  }

  // ---- the map of a code ----

  /** The name of a code in the store. */
  #nameOf(url) {
    let found = this.#names.get(url);
    if (found === undefined) {
      if (this.#names.size >= MOST_NAMES) this.#names.clear();
      try {
        found = { name: this.#bases.nameOf(url), refused: null };
      } catch (error) {
        if (!(error instanceof RefusedError)) throw error;
        found = { name: null, refused: error.message };
      }
      this.#names.set(url, found);
    }
    return found;
  }

  /** What to ask the table for. Throws Missing if that is known before. */
  #asked(url, debugId) {
    const { name, refused } = this.#nameOf(url);
    if (name === null && debugId === null) throw refused === null ? outside(url) : new Missing('refused', refused);
    const key = JSON.stringify([name, name === null ? url : null, debugId]);
    return [key, () => this.#finder.find(name, url, debugId)];
  }

  /** What answers the steps: at once, or with a store that may answer by promises. */
  #now = ({ url, debugId }) => this.#maps.get(...this.#asked(url, debugId));
  #later = ({ url, debugId, end }) => this.#maps.getAsync(...this.#asked(url, debugId), end - this.#clock());

  /** The map of a code, or the reason why there is none, and a detail. */
  *#known(url, given, end) {
    try {
      return { held: yield { url, debugId: given ? debugIdOf(given) : null, end } };
    } catch (error) {
      if (error instanceof Missing) return error;
      if (error instanceof TimeOver) return { reason: Reason.TIME, detail: '' };
      if (error instanceof RefusedError) return { reason: Reason.REFUSED, detail: error.message };
      throw error;
    }
  }

  // ---- frames ----

  #lookedUp(frame, held, debugId) {
    const { line, column } = frame;
    if (!(line > 0 && line <= MOST && column > 0 && column <= MOST)) return new Resolved(frame, Reason.POSITION, '', held.name);
    const at = held.map.trace(line - 1, column - 1);
    if (at === null || at.source === null) {
      const isThere = at !== null || held.map.traceToken(line - 1, column - 1) !== null;
      return new Resolved(frame, isThere ? Reason.UNMAPPED : Reason.NOTHING, '', held.name);
    }
    const found = new Resolved(frame, null, '', held.name);
    found.source = held.source(at.source);
    found.line = at.line;
    found.column = at.column;
    found.name = at.name;
    found.debugId = debugId;
    return found;
  }

  /** What is found for a code whose map is not known to its trace yet. */
  *#toKnow(url, debugId, end, known) {
    const found = yield* this.#known(url, debugId, end);
    if (known.size >= MOST_KNOWN) known.clear();
    known.set(url, found);
    return found;
  }

  /** What a frame comes to, by what was found for its code. */
  #resolved(frame, found, debugId) {
    if (found.held === undefined) return new Resolved(frame, found.reason, found.detail);
    return this.#lookedUp(frame, found.held, debugId);
  }

  *#one(url, line, column, debugId) {
    const frame = { url: String(url), line, column, start: 0, end: 0 };
    const end = this.#clock() + this.limits.seconds;
    const found = this.#resolved(frame, yield* this.#toKnow(frame.url, debugId, end, new Map()), debugId);
    this.#count([found]);
    return found;
  }

  resolveFrame(url, line, column, debugId = null) {
    checkPosition(line, column);
    return runSteps(this.#one(url, line, column, debugId), this.#now);
  }

  resolveFrameAsync(url, line, column, debugId = null) {
    checkPosition(line, column);
    return runStepsAsync(this.#one(url, line, column, debugId), this.#later);
  }

  // ---- traces ----

  #checkLength(text) {
    if (typeof text !== 'string' && !(text instanceof Uint8Array)) throw new TypeError('the trace is no string and no Uint8Array');
    const length = typeof text === 'string' ? Buffer.byteLength(text) : text.length;
    if (length <= this.limits.traceBytes) return;
    this.#counts.add('tracesRefused');
    throw new TooLargeError('the trace', length, this.limits.traceBytes);
  }

  *#trace(text, debugIds) {
    this.#checkLength(text);
    const trace = typeof text === 'string' ? text : readable(text).text;
    const end = this.#clock() + this.limits.seconds;
    const known = new Map();
    const found = [];
    for (const frame of framesIn(trace)) {
      if (found.length >= this.limits.frames || this.#clock() > end) {
        found.push(new Resolved(frame, found.length >= this.limits.frames ? Reason.FRAMES : Reason.TIME));
        continue;
      }
      const debugId = Object.hasOwn(debugIds, frame.url) ? debugIds[frame.url] : null;
      // (what is known of the codes of a trace is asked once)
      const it = known.get(frame.url) ?? (yield* this.#toKnow(frame.url, debugId, end, known));
      found.push(this.#resolved(frame, it, debugId));
    }
    this.#counts.add('traces');
    this.#count(found);
    return found;
  }

  *#text(text, debugIds) {
    const found = yield* this.#trace(text, debugIds);
    if (typeof text === 'string') return replaceFrames(text, found);
    const { text: trace, toBytes, inBytes = (it) => it } = readable(text);
    return toBytes(replaceFrames(trace, found.map(({ frame, place }) => ({ frame, place: place === null ? null : inBytes(place) }))));
  }

  resolve(text, debugIds = {}) {
    return runSteps(this.#trace(text, debugIds), this.#now);
  }

  resolveAsync(text, debugIds = {}) {
    return runStepsAsync(this.#trace(text, debugIds), this.#later);
  }

  resolveText(text, debugIds = {}) {
    return runSteps(this.#text(text, debugIds), this.#now);
  }

  resolveTextAsync(text, debugIds = {}) {
    return runStepsAsync(this.#text(text, debugIds), this.#later);
  }

  // ---- lines around a place ----

  *#context(found, lines) {
    if (!(Number.isInteger(lines) && lines >= 0)) throw new RangeError('the number of lines is below 0, or no integer');
    if (found.source === null) return null;
    const { held } = yield* this.#known(found.frame.url, found.debugId, this.#clock() + this.limits.seconds);
    const token = held?.map.traceToken(found.frame.line - 1, found.frame.column - 1) ?? null;
    if (token === null || token.sourceId === null || token.originalLine !== found.line) return null;
    const id = token.sourceId;
    if (held.source(held.map.getSource(id)) !== found.source) return null;
    const key = JSON.stringify([held.name, Buffer.from(held.map.stamp).toString('hex'), id]);
    try {
      // eslint-disable-next-line require-yield
      const content = this.#contents.get(key, function* () {
        return linesOf(held.map, id);
      });
      return found.line < content.length ? content.around(found.line, lines) : null;
    } catch (error) {
      if (error instanceof Missing) return null;
      throw error;
    }
  }

  context(found, lines = 3) {
    return runSteps(this.#context(found, lines), this.#now);
  }

  contextAsync(found, lines = 3) {
    return runStepsAsync(this.#context(found, lines), this.#later);
  }

  // ---- counts ----

  #count(found) {
    this.#counts.add('frames', found.length);
    for (const { reason } of found) this.#counts.add(reason === null ? 'resolved' : COUNTS.get(reason));
  }

  stats() {
    const compiled = ['Used', 'Stale', 'Damaged', 'Made', 'Unwritten'].map((it) => `compiled${it}`);
    const names = ['traces', 'tracesRefused', 'frames', 'resolved', ...COUNTS.values(), ...compiled];
    const own = Object.fromEntries(names.map((name) => [name, this.#counts.get(name)]));
    return { ...this.#maps.counts(), ...own, contextBytesHeld: this.#contents.counts().bytesHeld };
  }

  clear() {
    this.#maps.clear();
    this.#contents.clear();
  }
}

module.exports = { BESIDE, Folder, Lines, Reason, Resolved, Resolver, TooLargeError, framesIn, replaceFrames };
