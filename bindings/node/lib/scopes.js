'use strict';
// The class Scopes.

const native = require('./native.js');
const { NO_ID, Code, Words } = require('./constants.js');
const { check: checkCode, errorOfMap, made, refusal, long } = require('./errors.js');
const { text, shown, word, idOf, isPlace, list } = require('./arguments.js');
const { sourceText, sourceValue } = require('./inputs.js');
const { SourceMap } = require('./map.js');
const { valueOf } = require('./members.js');
const { CompiledMap } = require('./compiled.js');

const answers = native.words;

/** Room for the frames of a lookup, for a chain of scopes or for variables, which are few. */
let room = new Uint32Array(8 * Words.FRAME);

/** What the constructor takes: the handle of scopes, and the names of their map if they are known. */
class Made {
  constructor(handle, names) {
    this.handle = handle;
    this.names = names;
  }
}

/** Whether scopes were freed. */
let isGone;

class Scopes {
  #handle;
  #names; // null if they are not known

  static {
    isGone = (scopes) => native.scopesCounts(scopes.#handle) !== 0;
  }

  constructor(it) {
    if (!(it instanceof Made)) throw new TypeError('Scopes are made by Scopes.read and Scopes.decode');
    this.#handle = it.handle;
    this.#names = it.names;
  }

  static read(json) {
    if (json instanceof SourceMap) throw new TypeError('A SourceMap keeps no scopes: read them from what it was read from');
    const value = sourceValue(json) ?? (isScopesValue(json) ? json : null);
    if (value !== null) return scopesOfValue(value);
    const given = sourceText(json, 'The JSON text');
    const scopes = new Scopes(new Made(made(native.readScopes(given)), null));
    // (most maps have none, and need not be read twice)
    scopes.#names = scopes.counts.scopes === 0 ? [] : namesOf(valueOf(given));
    return scopes;
  }

  static decode(scopes, names) {
    const given = text(scopes, 'The scopes');
    if (typeof names === 'number') return new Scopes(new Made(made(native.decodeScopes(given, word(names, 'The number of names'))), null));
    return scopesOf(given, stringsOf(names));
  }

  free() {
    native.free(this.#handle);
  }

  // ---- what scopes hold ----

  get counts() {
    check(native.scopesCounts(this.#handle));
    const [sources, scopes, ranges] = [0, 2, 4].map((at) => long(answers, at));
    return { sources, scopes, ranges };
  }

  /** The text of a name; null if it is not known. */
  #name(id) {
    const known = this.#names?.[id];
    return typeof known === 'string' ? known : null;
  }

  scope(index) {
    const code = native.getScope(this.#handle, word(index, 'The index'));
    if (code === Code.NO_ENTRY) return null;
    check(code);
    const [nameId, kindId] = [idOf(answers[5]), idOf(answers[6])];
    return Object.freeze({
      index,
      sourceId: answers[0],
      start: positionIn(answers, 1),
      end: positionIn(answers, 3),
      nameId,
      name: this.#name(nameId),
      kindId,
      kind: this.#name(kindId),
      isStackFrame: answers[7] === 1,
      parent: idOf(answers[8]),
    });
  }

  range(index) {
    const code = native.getRange(this.#handle, word(index, 'The index'));
    if (code === Code.NO_ENTRY) return null;
    check(code);
    return Object.freeze({
      index,
      start: positionIn(answers, 0),
      end: positionIn(answers, 2),
      definition: idOf(answers[4]),
      isStackFrame: answers[5] === 1,
      isHidden: answers[6] === 1,
      call: callIn(answers, 7),
      parent: idOf(answers[10]),
    });
  }

  get scopes() {
    return Object.freeze(Array.from({ length: this.counts.scopes }, (_, index) => this.scope(index)));
  }

  get ranges() {
    return Object.freeze(Array.from({ length: this.counts.ranges }, (_, index) => this.range(index)));
  }

  // ---- lookups ----

  scopeAt(source, line, column) {
    if (isPlace(source)) return this.scopeAt(source.sourceId ?? source.source, source.line, source.column);
    const index = indexOf(native.scopeAt(this.#handle, word(source, 'The source'), word(line, 'The line'), word(column, 'The column')));
    return index === null ? null : this.scope(index);
  }

  functionAt(source, line, column) {
    if (isPlace(source)) return this.functionAt(source.sourceId ?? source.source, source.line, source.column);
    const index = indexOf(native.functionAt(this.#handle, word(source, 'The source'), word(line, 'The line'), word(column, 'The column')));
    return index === null ? null : this.scope(index);
  }

  rangeAt(line, column) {
    if (isPlace(line)) return this.rangeAt(line.line, line.column);
    const index = indexOf(native.rangeAt(this.#handle, word(line, 'The line'), word(column, 'The column')));
    return index === null ? null : this.range(index);
  }

  framesAt(line, column) {
    if (isPlace(line)) return this.framesAt(line.line, line.column);
    const place = [word(line, 'The line'), word(column, 'The column')];
    check(listed(Words.FRAME, (out) => native.framesAt(this.#handle, ...place, out)));
    const [length, isHidden] = answers;
    const frames = Array.from({ length }, (_, i) => this.#frame(Words.FRAME * i));
    return Object.freeze({ frames: Object.freeze(frames), isHidden: isHidden === 1 });
  }

  // ---- variables ----

  variables(scope) {
    const ids = this.#variableIds(word(scope, 'The scope'));
    return ids && Object.freeze(ids.map((nameId) => Object.freeze({ nameId, name: this.#name(nameId) })));
  }

  valueAt(range, variable, line, column) {
    if (isPlace(line)) return this.valueAt(range, variable, line.line, line.column);
    const [index, at] = [word(range, 'The range'), word(variable, 'The variable')];
    const valueId = this.#valueId(index, at, [word(line, 'The line'), word(column, 'The column')]);
    return valueId === null ? null : Object.freeze({ valueId, value: this.#name(valueId) });
  }

  scopeChainAt(line, column) {
    if (isPlace(line)) return this.scopeChainAt(line.line, line.column);
    const place = [word(line, 'The line'), word(column, 'The column')];
    return this.#chain(place, (out) => native.scopeChainAt(this.#handle, ...place, out));
  }

  scopeChain(frame, line, column) {
    if (isPlace(line)) return this.scopeChain(frame, line.line, line.column);
    const [index, place] = [word(frame, 'The frame'), [word(line, 'The line'), word(column, 'The column')]];
    return this.#chain(place, (out) => native.scopeChain(this.#handle, index, ...place, out));
  }

  /** The chain that a call lists, with the variables of its scopes at a place; null if there is none. */
  #chain(place, list) {
    const code = listed(Words.CHAIN_ENTRY, list);
    if (code === Code.NO_ENTRY) return null;
    check(code);
    const pairs = Array.from({ length: answers[0] }, (_, i) => [room[Words.CHAIN_ENTRY * i], idOf(room[Words.CHAIN_ENTRY * i + 1])]);
    return Object.freeze(pairs.map(([scope, range]) => Object.freeze({ scope, range, variables: this.#variablesIn(scope, range, place) })));
  }

  /** The variables of a scope with their values in a range, or with none. */
  #variablesIn(scope, range, place) {
    const variables = this.#variableIds(scope).map((nameId, i) => {
      const valueId = range === null ? null : this.#valueId(range, i, place);
      return Object.freeze({ nameId, name: this.#name(nameId), valueId, value: this.#name(valueId) });
    });
    return Object.freeze(variables);
  }

  /** The variables of a scope, by the ids of their names; null past the last scope. */
  #variableIds(scope) {
    const code = listed(1, (out) => native.getVariables(this.#handle, scope, out));
    if (code === Code.NO_ENTRY) return null;
    check(code);
    return Array.from(room.subarray(0, answers[0]));
  }

  /** The id of the value of a variable; null if it has none. */
  #valueId(range, variable, place) {
    const id = indexOf(native.valueAt(this.#handle, range, variable, ...place));
    return id === null ? null : idOf(id);
  }

  // ---- the texts of frames ----

  trace(map, line, column, bias) {
    if (!(map instanceof SourceMap || map instanceof CompiledMap)) throw new TypeError('The map is neither a SourceMap nor a CompiledMap');
    if (isPlace(line)) return this.trace(map, line.line, line.column, line.bias);
    const { frames, isHidden } = this.framesAt(line, column);
    const first = placeOf(map.trace(line, column, bias));
    return Object.freeze({ frames: Object.freeze(isHidden ? [] : tracedFrames(map, frames, first)), isHidden });
  }

  view(map, line, column, bias) {
    if (isPlace(line)) return this.view(map, line.line, line.column, line.bias);
    const { frames, isHidden } = this.trace(map, line, column, bias);
    const views = frames.map((frame, i) => Object.freeze({ ...frame, scopes: this.#views(this.scopeChain(i, line, column) ?? []) }));
    return Object.freeze({ frames: Object.freeze(views), isHidden });
  }

  /** The entries of a chain, with what their scopes are. */
  #views(chain) {
    const views = chain.map((entry) => {
      const { kind, name } = this.scope(entry.scope);
      return Object.freeze({ kind, name, ...entry });
    });
    return Object.freeze(views);
  }

  #frame(at) {
    const nameId = idOf(room[at]);
    return Object.freeze({ nameId, name: this.#name(nameId), scope: idOf(room[at + 1]), call: callIn(room, at + 2) });
  }
}

/** Throws what a call has refused that asks scopes. */
function check(code) {
  if (code === Code.NULL_HANDLE) throw errorOfMap('SMAP_NULL_HANDLE', 'The scopes were freed');
  checkCode(code);
}

/** The code of a call that lists entries of so many words in the room, which grows for all of them. */
function listed(size, list) {
  const code = list(room);
  if (code !== 0 || size * answers[0] <= room.length) return code;
  room = new Uint32Array(size * answers[0]);
  return list(room);
}

/** The names of the value of a map. */
function namesOf({ names }) {
  return Array.isArray(names) ? names : [];
}

/** Names as an argument: a list of strings. */
function stringsOf(names) {
  const all = list(names, 'names');
  const at = all.findIndex((name) => typeof name !== 'string');
  if (at >= 0) throw new TypeError(`names[${at}] is ${shown(all[at])}, and not a string`);
  return all;
}

/** The scopes of their text, in a map with these names. */
function scopesOf(given, names) {
  return new Scopes(new Made(made(native.decodeScopes(given, names.length)), names));
}

/** Whether an object is the value of a map that may lack its mappings. */
function isScopesValue(it) {
  return it !== null && typeof it === 'object' && !(it instanceof Scopes) && ('scopes' in it || 'version' in it);
}

/** The scopes of the value of a map. */
function scopesOfValue(value) {
  const { scopes, sections } = value;
  if (sections !== undefined && sections !== null) throw refusal(Code.SCOPES_INDEXED);
  if (scopes === undefined || scopes === null) return scopesOf('', []);
  if (typeof scopes !== 'string') throw refusal(Code.SCOPES_NOT_TEXT);
  return scopesOf(text(scopes, 'The text of scopes'), [...namesOf(value)]);
}

/** The place of an answer of a map; nulls if there is none. */
function placeOf(found) {
  const { source, line, column } = found ?? { source: null, line: null, column: null };
  return { source, line, column };
}

/** Frames with their places: of the first where the map leads, which alone is known where no range is. */
function tracedFrames(map, frames, first) {
  if (frames.length === 0) return first.source === null ? [] : [Object.freeze({ name: null, ...first })];
  const { sources } = map;
  return frames.map(({ name, call }) => {
    const place = call === null ? first : { source: sources[call.sourceId] ?? null, line: call.line, column: call.column };
    return Object.freeze({ name, ...place });
  });
}

/** What a lookup has found; null if that is nothing. */
function indexOf(code) {
  if (code === Code.NO_ENTRY) return null;
  check(code);
  return answers[0];
}

/** The position whose words stand from `at` on. */
function positionIn(words, at) {
  return Object.freeze({ line: words[at], column: words[at + 1] });
}

/** The place of a call; null if there is none. */
function callIn(words, at) {
  return words[at] === NO_ID ? null : Object.freeze({ sourceId: words[at], line: words[at + 1], column: words[at + 2] });
}

/** What `console.log` of Node shows of scopes: their counts. */
function inspected(depth, options, inspect) {
  const name = 'Scopes';
  if (isGone(this)) return `${name} (freed)`;
  return depth < 0 ? `[${name}]` : `${name} ${inspect(this.counts, options)}`;
}

for (const [key, value] of [
  [Symbol.for('nodejs.util.inspect.custom'), inspected],
  [Symbol.dispose ?? Symbol.for('nodejs.dispose'), Scopes.prototype.free],
]) {
  Object.defineProperty(Scopes.prototype, key, { value, configurable: true, writable: true });
}

module.exports = { Scopes };
