'use strict';
// The class CompiledMap.

const native = require('./native.js');
const { Bias, Code, Kind, Slot, Which } = require('./constants.js');
const { check, damaged, made, madeOrNull, long } = require('./errors.js');
const { bytesOf, isPlace, option, shown, word, checkWords } = require('./arguments.js');
const { fileSystem } = require('./inputs.js');
const { tokenAt } = require('./iteration.js');
const { mapOf } = require('./map.js');

const answers = native.words;
const ask = native.trace;

const { SELECTED, LINE, COLUMN, BIAS } = Slot;

/** Where the counts have the length of the text, and whether there is an ignore list. */
const TEXT_LENGTH = 8;
const HAS_IGNORE_LIST = 10;

/** Whether a compiled map was freed, or its bytes were taken away. */
let isGone;

class CompiledMap {
  #handle;
  #length; // how many bytes there are
  #number = -1; // by which the library tells that this is the map that it asks
  #sources = new Map(); // those that lookups found, by their ids
  #names = new Map();

  static {
    isGone = (map) => native.compiledCounts(map.#handle) !== 0;
  }

  constructor(bytes) {
    const given = bytesOf(bytes, 'The bytes');
    this.#handle = made(native.openCompiled(given));
    this.#length = given.byteLength;
  }

  static openFile(path) {
    const files = fileSystem();
    if (typeof path !== 'string' && !(path instanceof URL)) throw new TypeError(`The path is ${shown(path)}, and neither a string nor a URL`);
    return new CompiledMap(files.readFileSync(path));
  }

  free() {
    this.#sources.clear();
    this.#names.clear();
    native.free(this.#handle);
  }

  decompile() {
    const answer = native.decompile(this.#handle);
    if (answer === Code.NO_ENTRY) throw damaged();
    return mapOf(answer);
  }

  // ---- what a map holds ----

  get counts() {
    check(native.compiledCounts(this.#handle));
    const [tokens, sources, names, ignoreList] = [0, 2, 4, 6].map((at) => long(answers, at));
    return { tokens, names, sources, ignoreList };
  }

  get textLength() {
    check(native.compiledCounts(this.#handle));
    return long(answers, TEXT_LENGTH);
  }

  get hasIgnoreList() {
    check(native.compiledCounts(this.#handle));
    return answers[HAS_IGNORE_LIST] === 1;
  }

  get stamp() {
    return made(native.stamp(this.#handle));
  }

  /** A text; null if there is none. */
  #text(which, id) {
    return madeOrNull(native.text(this.#handle, which, id));
  }

  getName(id) {
    return this.#text(Which.NAME, word(id, 'The id'));
  }

  getSource(id) {
    return this.#text(Which.SOURCE, word(id, 'The id'));
  }

  getSourceContent(id) {
    return this.#text(Which.CONTENT, word(id, 'The id'));
  }

  /** So many texts of a list, by their ids. They are no longer than the bytes, but where these are damaged so that texts overlap. */
  #texts(which, count) {
    let left = this.#length;
    return Array.from({ length: count }, (_, id) => {
      const text = this.#text(which, id);
      left -= text === null ? 0 : text.length;
      if (left < 0) throw damaged();
      return text;
    });
  }

  get names() {
    return this.#texts(Which.NAME, this.counts.names);
  }

  get sources() {
    return this.#texts(Which.SOURCE, this.counts.sources);
  }

  get sourcesContent() {
    return this.#texts(Which.CONTENT, this.counts.sources);
  }

  get file() {
    return this.#text(Which.FILE, 0);
  }

  get sourceRoot() {
    return this.#text(Which.SOURCE_ROOT, 0);
  }

  get debugId() {
    return this.#text(Which.DEBUG_ID, 0);
  }

  isIgnored(id) {
    check(native.isIgnored(this.#handle, word(id, 'The id')));
    return answers[0] === 1;
  }

  token(index) {
    const code = native.getToken(this.#handle, word(index, 'The index'));
    if (code === Code.NO_ENTRY) return null;
    check(code);
    return tokenAt(answers, 0, index);
  }

  // ---- lookups ----

  /** Asks for a generated position, and says of what kind the answer is. */
  #ask(line, column, bias) {
    if (line >>> 0 !== line) word(line, 'The line');
    if (column >>> 0 !== column) word(column, 'The column');
    if (bias >>> 0 !== bias) option(bias, 'The bias', 'Bias');
    if (answers[SELECTED] !== this.#number) {
      native.select(this.#handle);
      this.#number = answers[SELECTED] || -1;
    }
    answers[LINE] = line;
    answers[COLUMN] = column;
    answers[BIAS] = bias;
    const code = ask();
    if (code !== undefined) check(code);
    return answers[0];
  }

  /** A text that a lookup found: read once, and kept. */
  #kept(texts, which, id) {
    const known = texts.get(id);
    if (known !== undefined) return known;
    const read = made(native.text(this.#handle, which, id));
    texts.set(id, read);
    return read;
  }

  trace(line, column, bias = Bias.BEFORE) {
    if (isPlace(line)) return this.trace(line.line, line.column, line.bias);
    const kind = this.#ask(line, column, bias);
    if (kind < Kind.MAPPED) return null;
    const token = tokenAt(answers, 2, answers[1]);
    return {
      source: this.#kept(this.#sources, Which.SOURCE, token.sourceId),
      line: token.originalLine,
      column: token.originalColumn,
      name: kind === Kind.NAMED ? this.#kept(this.#names, Which.NAME, token.nameId) : null,
      index: token.index,
    };
  }

  traceToken(line, column, bias = Bias.BEFORE) {
    if (isPlace(line)) return this.traceToken(line.line, line.column, line.bias);
    return this.#ask(line, column, bias) === Kind.NOTHING ? null : tokenAt(answers, 2, answers[1]);
  }

  traceAll(positions, bias = Bias.BEFORE, out = new Uint32Array(4 * checkWords(positions, 'positions').length)) {
    check(native.traceAll(this.#handle, checkWords(positions, 'positions'), option(bias, 'The bias', 'Bias'), checkWords(out, 'out')));
    return out;
  }

  findAll(positions, bias = Bias.BEFORE, out = new Uint32Array(checkWords(positions, 'positions').length / 2)) {
    check(native.findAll(this.#handle, checkWords(positions, 'positions'), option(bias, 'The bias', 'Bias'), checkWords(out, 'out')));
    return out;
  }
}

/** What `console.log` of Node shows of a map: its counts. */
function inspected(depth, options, inspect) {
  const name = 'CompiledMap';
  if (isGone(this)) return `${name} (freed)`;
  return depth < 0 ? `[${name}]` : `${name} ${inspect(this.counts, options)}`;
}

for (const [key, value] of [
  [Symbol.for('nodejs.util.inspect.custom'), inspected],
  [Symbol.dispose ?? Symbol.for('nodejs.dispose'), CompiledMap.prototype.free],
]) {
  Object.defineProperty(CompiledMap.prototype, key, { value, configurable: true, writable: true });
}

module.exports = { CompiledMap };
