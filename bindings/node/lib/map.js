'use strict';
// The class SourceMap.

const native = require('./native.js');
const { NO_ID, Bias, Direction, Kind, Code, Which, Form, Slot, MENDS } = require('./constants.js');
const { errorOf, refusal, check, made, madeOrNull, long, longOrNull } = require('./errors.js');
const { text, word, option, optionsOf, longWords, limitOf, fixedBytes, isPlace, idOf, list, checkWords, words, tokens, texts, contents } = require('./arguments.js');
const { Columns } = require('./columns.js');
const { toDecoded } = require('./decoded.js');
const { sourceText, encodedMappings } = require('./inputs.js');
const { tokenAt, mappingAt, mappingsOf } = require('./iteration.js');
const { keptMembers, textWith, bytesOf, dataURLOf } = require('./members.js');

const answers = native.words;
const ask = native.trace; // a look for it in so many properties would cost a fifth of the call
const NOTHING = new Uint32Array(0);
const NO_STAMP = new Uint8Array(0);
const STAMP = 32;

const { SELECTED, LINE, COLUMN, BIAS } = Slot;

/** What the constructor takes in place of a text: the handle of a map that a call has made. */
class Made {
  constructor(handle, members) {
    this.handle = handle;
    this.members = members;
  }
}

/** The map of what a call answers, if need be of reading this text, and its members that the format does not know. */
function mapOf(answer, text, members = null) {
  return new SourceMap(new Made(made(answer, text), members));
}

/** The handle of a map. */
let handleOf;

// So many texts of a map are kept before its counts are asked for, which have these at these places.
const FEW = 8;
const NAMES = 1;
const SOURCES = 2;

const WORDS = 6;

// A map is asked so often before its tokens are copied, or at least by an eighth of them; one that has more of them is not copied.
const FIRST_ASKED = 8;
const MOST_COPIED = 1 << 17;

// Maps that this thread shares, which are kept until they are freed.
const shared = new Set();

class SourceMap {
  #handle;
  #number = -1; // by which the addon tells that this is the map that it asks
  #nameCache = null;
  #sourceCache = null;
  #names = null;
  #sources = null;
  #sourceIds = null;
  #members = null; // that the format does not know
  #columns = null; // in which lookups are answered, once there were many
  #asked = 0;
  #due = FIRST_ASKED;

  static {
    // (a negated `#handle in map` loses its parentheses in terser 5.16)
    handleOf = (map) => {
      try {
        return map.#handle;
      } catch {
        throw new TypeError('It is not a SourceMap');
      }
    };
  }

  constructor(json, options) {
    if (json instanceof Made) {
      this.#handle = json.handle;
      this.#members = json.members;
      return;
    }
    const given = sourceText(json, 'The JSON text');
    this.#handle = made(native.fromJson(given), given);
    this.#members = keptMembers(given, options);
  }

  // ---- making ----

  static get backend() {
    return native.backend;
  }

  static async read(json, options) {
    const given = sourceText(json, 'The JSON text');
    const answer = await native.readAsync(given);
    if (answer instanceof Uint32Array) throw errorOf(answer, given);
    return mapOf(answer, given, keptMembers(given, options));
  }

  static found(json, options) {
    const given = sourceText(json, 'The text');
    const answer = native.readFound(given);
    const map = mapOf(answer, given, typeof answer === 'number' ? null : keptMembers(given, options));
    return { map, mends: mendsOf(map.#handle) };
  }

  static fromTokens(all, lists = {}) {
    const names = texts(lists.names ?? [], 'names');
    const sources = texts(lists.sources ?? [], 'sources');
    const known = contents(lists.sourcesContent ?? [], 'sourcesContent');
    const ignored = words(lists.ignoreList ?? [], 'ignoreList');
    const map = mapOf(
      native.fromTokens(
        tokens(all),
        names.bytes,
        names.lengths,
        sources.bytes,
        sources.lengths,
        known.bytes,
        known.lengths,
        ignored,
      ),
    );
    if (lists.file !== undefined) map.setFile(lists.file);
    if (lists.sourceRoot !== undefined) map.setSourceRoot(lists.sourceRoot);
    if (lists.debugId !== undefined) map.setDebugId(lists.debugId);
    return map;
  }

  static fromMappings(mappings, { names = NO_ID, sources = NO_ID } = {}) {
    const given = text(encodedMappings(mappings), 'The mappings');
    return mapOf(native.decodeMappings(given, word(names, 'names'), word(sources, 'sources')), given);
  }

  static join(parts) {
    const all = list(parts, 'parts');
    const positions = Uint32Array.from(
      all.flatMap(({ line, column = 0 }) => [word(line, 'The line'), word(column, 'The column')]),
    );
    return mapOf(
      native.joinAll(
        all.map((part) => handleOf(part.map)),
        positions,
      ),
    );
  }

  static shared(number) {
    return mapOf(native.takeShared(word(number, 'The number')));
  }

  share() {
    check(native.share(this.#handle));
    shared.add(this);
    return answers[0];
  }

  free() {
    shared.delete(this);
    this.#forget();
    native.free(this.#handle);
  }

  clone() {
    return mapOf(native.clone(this.#handle), undefined, this.#members);
  }

  /** Drops what is kept of the map, which may have changed. */
  #forget() {
    this.#nameCache = this.#sourceCache = this.#names = this.#sources = this.#sourceIds = this.#columns = null;
    this.#asked = 0;
    this.#due = FIRST_ASKED;
  }

  // ---- what a map holds ----

  get counts() {
    check(native.getCounts(this.#handle));
    const [tokens, names, sources, sourcesContent, ignoreList, lines] = answers;
    return { tokens, names, sources, sourcesContent, ignoreList, lines, bytes: long(answers, 6) };
  }

  get isSorted() {
    check(native.isSorted(this.#handle));
    return answers[0] === 1;
  }

  get isSound() {
    check(native.isSound(this.#handle));
    return answers[0] === 1;
  }

  get names() {
    this.#names ??= Object.freeze(made(native.texts(this.#handle, Which.NAME)));
    return this.#names;
  }

  get sources() {
    this.#sources ??= Object.freeze(made(native.texts(this.#handle, Which.SOURCE)));
    return this.#sources;
  }

  get sourcesContent() {
    return made(native.texts(this.#handle, Which.CONTENT));
  }

  getName(id) {
    return madeOrNull(native.text(this.#handle, Which.NAME, word(id, 'The id')));
  }

  getSource(id) {
    return madeOrNull(native.text(this.#handle, Which.SOURCE, word(id, 'The id')));
  }

  getSourceContent(source) {
    const id = this.#idOf(source);
    return id === undefined ? null : madeOrNull(native.text(this.#handle, Which.CONTENT, word(id, 'The id')));
  }

  /** The id of a source that is told by its id or its name, of equal ones the first; undefined if none has the name. */
  #idOf(source) {
    if (typeof source !== 'string') return source;
    this.#sourceIds ??= firstIds(this.sources);
    return this.#sourceIds.get(source);
  }

  get unknownMembers() {
    return this.#members;
  }

  get file() {
    return madeOrNull(native.text(this.#handle, Which.FILE, 0));
  }

  get sourceRoot() {
    return madeOrNull(native.text(this.#handle, Which.SOURCE_ROOT, 0));
  }

  get debugId() {
    return madeOrNull(native.text(this.#handle, Which.DEBUG_ID, 0));
  }

  get ignoreList() {
    const code = native.getIgnoreList(this.#handle, NOTHING);
    if (code === Code.NO_ENTRY) return null;
    check(code);
    const out = new Uint32Array(answers[0]);
    check(native.getIgnoreList(this.#handle, out));
    return [...out];
  }

  token(index) {
    const code = native.getToken(this.#handle, word(index, 'The index'));
    if (code === Code.NO_ENTRY) return null;
    check(code);
    return tokenAt(answers, 0, index);
  }

  tokens(out) {
    check(native.getCounts(this.#handle));
    const length = 6 * answers[0];
    const all = out === undefined ? new Uint32Array(length) : checkWords(out, 'out');
    if (all.length !== length) throw refusal(Code.LENGTHS);
    check(native.getTokens(this.#handle, all));
    return all;
  }

  get decodedMappings() {
    const { lines } = this.counts;
    return toDecoded(this.tokens(), lines);
  }

  [Symbol.iterator]() {
    return mappingsOf(this.tokens(), this.sources, this.names);
  }

  eachMapping(callback) {
    const all = this.tokens();
    const { sources, names } = this;
    for (let index = 0; 6 * index < all.length; index++) callback(mappingAt(all, index, sources, names));
  }

  // ---- lookups ----

  /** Asks the library, and says of what kind the answer is. Refuses what is no position, and copies the tokens for later, once there were
   *  enough lookups. */
  #ask(line, column, bias) {
    if (line >>> 0 !== line || column >>> 0 !== column || bias >>> 0 !== bias) {
      word(line, 'The line');
      word(column, 'The column');
      option(bias, 'The bias', 'Bias');
    }
    if (this.#columns === null && ++this.#asked >= this.#due) this.#copyColumns();
    if (answers[SELECTED] !== this.#number) {
      native.select(this.#handle);
      this.#number = answers[SELECTED] || -1;
    }
    answers[LINE] = line;
    answers[COLUMN] = column;
    answers[BIAS] = bias;
    const code = ask();
    if (code !== undefined) check(code);
    return answers[0];
  }

  /** Copies the tokens, if there were enough lookups for them, and the map is as `Columns` takes it. */
  #copyColumns() {
    this.#due = Infinity;
    if (native.getCounts(this.#handle) !== 0 || answers[0] > MOST_COPIED) return;
    const [count, , , , , lines] = answers;
    if (this.#asked < count / 8) this.#due = Math.ceil(count / 8);
    else if (lines <= FIRST_ASKED * MOST_COPIED && this.isSound) this.#columns = new Columns(this.tokens(), lines);
  }

  trace(line, column, bias = Bias.BEFORE) {
    const columns = this.#columns;
    if (columns !== null && isQuestion(line, column, bias)) {
      const { tokens } = columns;
      const index = columns.find(line, column, bias);
      const at = WORDS * index;
      if (index < 0 || tokens[at + 4] === NO_ID) return null;
      return this.#originalAt(tokens, at, index, tokens[at + 5] !== NO_ID);
    }
    if (isPlace(line)) return this.trace(line.line, line.column, line.bias);
    const kind = this.#ask(line, column, bias);
    return kind < Kind.MAPPED ? null : this.#originalAt(answers, 2, answers[1], kind === Kind.NAMED);
  }

  /** What the token at these words says. All of them are read first, as reading a text writes others in their place. */
  #originalAt(words, at, index, isNamed) {
    const line = words[at + 2];
    const column = words[at + 3];
    const sourceId = words[at + 4];
    const nameId = words[at + 5];
    const source = this.#sourceCache?.[sourceId] ?? this.#keptSource(sourceId);
    const name = isNamed ? (this.#nameCache?.[nameId] ?? this.#keptName(nameId)) : null;
    return { source, line, column, name, index };
  }

  traceToken(line, column, bias = Bias.BEFORE) {
    if (this.#columns !== null && isQuestion(line, column, bias)) return this.#columns.traceToken(line, column, bias);
    if (isPlace(line)) return this.traceToken(line.line, line.column, line.bias);
    return this.#ask(line, column, bias) === Kind.NOTHING ? null : tokenAt(answers, 2, answers[1]);
  }

  /** A text that a lookup found: read once, and kept. */
  #keptSource(id) {
    const source = made(native.text(this.#handle, Which.SOURCE, id));
    this.#sourceCache = this.#withRoom(this.#sourceCache, id, SOURCES);
    this.#sourceCache[id] = source;
    return source;
  }

  #keptName(id) {
    const name = made(native.text(this.#handle, Which.NAME, id));
    this.#nameCache = this.#withRoom(this.#nameCache, id, NAMES);
    this.#nameCache[id] = name;
    return name;
  }

  /** A list that has room for an entry: at first for a few, so that small maps are not asked for their counts, and then for all, so that it
   *  stays fast. `count` is where the counts have that of the list. */
  #withRoom(list, id, count) {
    if (list !== null && id < list.length) return list;
    if (id < FEW) return new Array(FEW);
    check(native.getCounts(this.#handle));
    const all = new Array(answers[count]);
    list?.forEach((it, at) => (all[at] = it));
    return all;
  }

  traceAll(positions, bias = Bias.BEFORE, out = undefined) {
    const all = out === undefined ? new Uint32Array(4 * checkWords(positions, 'positions').length) : out;
    check(native.traceAll(this.#handle, checkWords(positions, 'positions'), option(bias, 'The bias', 'Bias'), checkWords(all, 'out')));
    return all;
  }

  findAll(positions, bias = Bias.BEFORE, out = undefined) {
    const all = out === undefined ? new Uint32Array(checkWords(positions, 'positions').length / 2) : out;
    check(native.findAll(this.#handle, checkWords(positions, 'positions'), option(bias, 'The bias', 'Bias'), checkWords(all, 'out')));
    return all;
  }

  pieces(begin, end) {
    const range = [begin, end].flatMap(({ line, column }) => [word(line, 'The line'), word(column, 'The column')]);
    check(native.pieces(this.#handle, ...range, NOTHING));
    const out = new Uint32Array(5 * answers[0]);
    check(native.pieces(this.#handle, ...range, out));
    return Array.from({ length: out.length / 5 }, (_, i) => pieceAt(out, 5 * i));
  }

  firstDifference(other) {
    const code = native.firstDifference(this.#handle, handleOf(other));
    if (code === Code.NO_ENTRY) return null;
    check(code);
    return { line: answers[0], column: answers[1] };
  }

  indexSources() {
    check(native.indexSources(this.#handle));
  }

  /** The numbers that reverse lookups take; null if no source has the name. */
  #place(source, line, column, direction) {
    const id = this.#idOf(source);
    const asked = [
      word(id ?? (typeof source === 'string' ? 0 : id), 'The id of the source'),
      word(line, 'The line'),
      word(column, 'The column'),
      option(direction, 'The direction', 'Direction'),
    ];
    return id === undefined ? null : asked;
  }

  /** The code of a call that needs the index, which is made if it is not there. A shared map takes no change. */
  #indexed(call) {
    const code = call();
    if (code !== Code.NO_INDEX) return code;
    const refused = native.indexSources(this.#handle);
    if (refused !== Code.SHARED) check(refused);
    return call();
  }

  generated(source, line, column, direction = Direction.AT) {
    if (isPlace(source)) return this.generated(source.source, source.line, source.column, source.direction);
    const asked = this.#place(source, line, column, direction);
    if (asked === null) return null;
    const code = this.#indexed(() => native.generated(this.#handle, ...asked));
    if (code === Code.NO_ENTRY) return null;
    check(code);
    return tokenAt(answers, 1, answers[0]);
  }

  allGenerated(source, line, column, direction = Direction.AT) {
    if (isPlace(source)) return this.allGenerated(source.source, source.line, source.column, source.direction);
    const asked = this.#place(source, line, column, direction);
    if (asked === null) return new Uint32Array(0);
    check(this.#indexed(() => native.allGenerated(this.#handle, ...asked, NOTHING)));
    const out = new Uint32Array(answers[0]);
    check(native.allGenerated(this.#handle, ...asked, out));
    return out;
  }

  // ---- changing ----

  setFile(file) {
    check(native.setText(this.#handle, Which.FILE, text(file, 'The file')));
  }

  setSourceRoot(root) {
    check(native.setText(this.#handle, Which.SOURCE_ROOT, text(root, 'The source root')));
  }

  setDebugId(id) {
    check(native.setText(this.#handle, Which.DEBUG_ID, text(id, 'The debug id')));
  }

  setSources(sources) {
    const { bytes, lengths } = texts(sources, 'sources');
    this.#forget();
    check(native.setTexts(this.#handle, Which.SOURCE, bytes, lengths));
  }

  setSourcesContent(sourcesContent) {
    const { bytes, lengths } = contents(sourcesContent, 'sourcesContent');
    check(native.setTexts(this.#handle, Which.CONTENT, bytes, lengths));
  }

  setIgnoreList(ids) {
    check(native.setIgnoreList(this.#handle, words(ids, 'ids')));
  }

  applySourceRoot() {
    this.#forget();
    check(native.applySourceRoot(this.#handle));
  }

  sort() {
    check(native.sort(this.#handle));
  }

  simplify() {
    this.#forget();
    check(native.simplify(this.#handle));
  }

  // ---- maps of maps ----

  compose(input) {
    return mapOf(native.compose(this.#handle, handleOf(input)));
  }

  remap(inputs) {
    if (inputs === null || typeof inputs !== 'object') throw new TypeError('inputs is not an object');
    const pairs = typeof inputs[Symbol.iterator] === 'function' ? [...inputs] : Object.entries(inputs);
    const { bytes, lengths } = texts(
      pairs.map(([path]) => path),
      'The path',
    );
    return mapOf(
      native.remap(
        this.#handle,
        bytes,
        lengths,
        pairs.map(([, map]) => handleOf(map)),
      ),
    );
  }

  // ---- writing ----

  toString(options) {
    const limit = limitOf(options);
    const write = (most) => made(native.write(this.#handle, Form.JSON, '', most));
    return this.#members === null ? write(limit) : textWith(this.#members, limit, write);
  }

  toBytes(options) {
    if (this.#members !== null) return bytesOf(this.toString(options));
    return made(native.writeBytes(this.#handle, Form.JSON, '', limitOf(options)));
  }

  toJSON() {
    return JSON.parse(this.toString());
  }

  toDataURL(options) {
    const limit = limitOf(options);
    const url = made(native.write(this.#handle, Form.DATA_URL, '', limit));
    return this.#members === null ? url : dataURLOf(this.toString(), url, limit);
  }

  compile(options) {
    const { textLength = 0, stamp } = optionsOf(options, ['textLength', 'stamp'], 'compile');
    const given = stamp === undefined ? NO_STAMP : fixedBytes(stamp, STAMP, 'The stamp');
    return made(native.compile(this.#handle, ...longWords(textLength, 'textLength'), given));
  }

  get mappings() {
    return made(native.write(this.#handle, Form.MAPPINGS, ''));
  }

  visualize(code) {
    return made(native.write(this.#handle, Form.DRAWING, text(code, 'The code')));
  }

  visualizerURL(code) {
    return made(native.write(this.#handle, Form.DRAWING_URL, text(code, 'The code')));
  }
}

function pieceAt(out, at) {
  return {
    begin: { line: out[at], column: out[at + 1] },
    end: { line: out[at + 2], column: out[at + 3] },
    index: idOf(out[at + 4]),
  };
}

/** Whether a copy of the tokens answers: of positions and a bias as they are to be. */
function isQuestion(line, column, bias) {
  return line >>> 0 === line && column >>> 0 === column && bias >>> 0 === bias && bias <= Bias.AFTER;
}

/** Each text and the first index at which it is listed. */
function firstIds(texts) {
  const ids = new Map();
  texts.forEach((it, id) => ids.has(it) || ids.set(it, id));
  return ids;
}

function mendAt(out, at) {
  return {
    kind: MENDS[out[at]] ?? 'UNKNOWN',
    section: longOrNull(out, at + 2),
    number: long(out, at + 4),
    message: native.mendMessage(out.slice(at, at + 6)),
  };
}

/** What was mended in a map that was read as it was found. */
function mendsOf(handle) {
  check(native.getMends(handle, NOTHING));
  const out = new Uint32Array(6 * answers[0]);
  check(native.getMends(handle, out));
  return Array.from({ length: out.length / 6 }, (_, i) => mendAt(out, 6 * i));
}

/** What `console.log` of Node shows of a map: its counts. */
function inspected(depth, options, inspect) {
  const name = 'SourceMap';
  if (native.getCounts(handleOf(this)) !== 0) return `${name} (freed)`;
  if (depth < 0) return `[${name}]`;
  const { file, counts } = this;
  return `${name} ${inspect(file === null ? counts : { file, ...counts }, options)}`;
}

Object.defineProperty(SourceMap.prototype, Symbol.for('nodejs.util.inspect.custom'), {
  value: inspected,
  configurable: true,
  writable: true,
});

Object.defineProperty(SourceMap.prototype, Symbol.dispose ?? Symbol.for('nodejs.dispose'), {
  value: SourceMap.prototype.free,
  configurable: true,
  writable: true,
});

module.exports = { SourceMap, mapOf, handleOf };
