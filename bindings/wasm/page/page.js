// The page's own script. `load`, which stands before it, gives the library over the module that the page holds: all answers are the
// library's. Lines and columns count from 0 here, and from 1 where they are shown.

const ROW_HEIGHT = 20;
/** Rows above and below those that are seen, which are in the document too. */
const MORE_ROWS = 12;
const LEAST_COLUMNS = 20;
const TOKEN = 6;
/** The tokens whose pieces are asked for at once. */
const BLOCK = 10_000;
/** Behind each position of a code. */
const END = { line: 0xffffffff, column: 0xffffffff };
const LINE_END = /\r\n|[\n\r\u2028\u2029]/;

const shownPlace = ({ line, column }) => `${line + 1}:${column + 1}`;

/** The first number from `low` up to but not including `high` for which `holds`, or `high`; it holds for all after it. */
function firstOf(low, high, holds) {
  while (low < high) {
    const middle = (low + high) >>> 1;
    if (holds(middle)) high = middle;
    else low = middle + 1;
  }
  return low;
}

// ---- a text in rows ----

/** Where row `k` of a line begins, for so many columns a row: no pair of surrogates is cut. */
function cutAt(text, k, columns) {
  const at = k * columns;
  if (at === 0 || at >= text.length) return Math.min(at, text.length);
  const isPair = /^[\ud800-\udbff][\udc00-\udfff]$/.test(text.slice(at - 1, at + 1));
  return isPair ? at + 1 : at;
}

/** A text whose long lines are broken into rows. */
class Rows {
  constructor(lines, columns) {
    this.lines = lines;
    this.columns = columns;
    this.firsts = new Uint32Array(lines.length + 1);
    for (let i = 0; i < lines.length; i++) this.firsts[i + 1] = this.firsts[i] + Math.max(1, Math.ceil(lines[i].length / columns));
  }

  get count() {
    return this.firsts[this.lines.length];
  }

  /** The line of a row, and from which column up to but not including which one the row has it. */
  row(number) {
    const line = firstOf(0, this.lines.length, (i) => this.firsts[i + 1] > number);
    const k = number - this.firsts[line];
    const text = this.lines[line];
    return { line, k, from: cutAt(text, k, this.columns), to: cutAt(text, k + 1, this.columns) };
  }

  /** The row of a position; past the end of a line its last one. */
  rowOf(line, column) {
    const at = Math.min(line, this.lines.length - 1);
    const last = this.firsts[at + 1] - this.firsts[at] - 1;
    let k = Math.min(Math.floor(column / this.columns), last);
    if (k > 0 && column < cutAt(this.lines[at], k, this.columns)) k -= 1;
    return this.firsts[at] + k;
  }
}

// ---- a pane ----

/**
 * Shows a text, of which only the rows that are seen are in the document. `partsOf(rows)` gives the parts of each row, each part with
 * `from`, `to`, `name` (its class) and `key`; `markOf(key)` how a part is marked now.
 */
class Pane {
  constructor(root, { partsOf, markOf }) {
    Object.assign(this, { root, partsOf, markOf });
    this.all = made('div', 'all');
    this.shown = made('div', 'shown');
    this.all.append(this.shown);
    this.root.append(this.all);
    this.lines = [''];
    this.root.addEventListener('scroll', () => this.draw());
    new ResizeObserver(() => this.layOut()).observe(this.root);
  }

  setText(text) {
    this.lines = text.split(LINE_END);
    this.root.scrollTop = 0;
    this.width = 0;
    this.layOut();
  }

  /** How wide the digits of a line's number and a column are, in columns and pixels. */
  measure() {
    const probe = made('span', 'probe', '0'.repeat(100));
    this.shown.append(probe);
    const width = probe.getBoundingClientRect().width / 100;
    probe.remove();
    return { width, digits: String(this.lines.length).length };
  }

  /** Breaks the lines anew where the pane has another width; the line that is seen first stays. */
  layOut() {
    if (this.width === this.root.clientWidth) return this.draw();
    const first = this.rows && this.width !== 0 ? this.rows.row(Math.floor(this.root.scrollTop / ROW_HEIGHT)) : { line: 0, from: 0 };
    this.width = this.root.clientWidth;
    const { width, digits } = this.measure();
    this.digits = digits;
    this.rows = new Rows(this.lines, Math.max(LEAST_COLUMNS, Math.floor(this.width / width) - digits - 4));
    this.all.style.height = `${this.rows.count * ROW_HEIGHT}px`;
    this.root.scrollTop = this.rows.rowOf(first.line, first.from) * ROW_HEIGHT;
    this.drawn = null;
    this.draw();
  }

  /** Puts the rows into the document that are seen, and some more. */
  draw() {
    if (!this.rows) return;
    const begin = Math.max(0, Math.floor(this.root.scrollTop / ROW_HEIGHT) - MORE_ROWS);
    const end = Math.min(this.rows.count, begin + Math.ceil(this.root.clientHeight / ROW_HEIGHT) + 2 * MORE_ROWS);
    if (this.drawn !== `${begin} ${end}`) {
      const rows = Array.from({ length: end - begin }, (_, i) => this.rows.row(begin + i));
      const parts = this.partsOf(rows);
      this.shown.replaceChildren(...rows.map((row, i) => this.drawnRow(row, parts[i])));
      this.shown.style.transform = `translateY(${begin * ROW_HEIGHT}px)`;
      this.drawn = `${begin} ${end}`;
    }
    this.mark();
  }

  drawnRow({ line, k }, parts) {
    const row = made('div', 'row');
    const label = made('span', 'number', k === 0 ? String(line + 1) : '');
    label.style.width = `${this.digits + 2}ch`;
    label.setAttribute('aria-hidden', 'true');
    const text = made('span', 'text');
    for (const part of parts) {
      const it = made('span', part.name, this.lines[line].slice(part.from, part.to));
      it.dataset.key = part.key;
      text.append(it);
    }
    row.append(label, text);
    return row;
  }

  /** Marks the parts that are shown now. */
  mark() {
    for (const it of this.shown.querySelectorAll('[data-key]')) {
      const { here, also } = this.markOf(it.dataset.key);
      it.classList.toggle('here', here);
      it.classList.toggle('also', also);
    }
  }

  /** Scrolls so that a position is seen. */
  scrollTo({ line, column }) {
    const top = this.rows.rowOf(line, column) * ROW_HEIGHT;
    const { scrollTop, clientHeight } = this.root;
    if (top < scrollTop || top + 2 * ROW_HEIGHT > scrollTop + clientHeight) this.root.scrollTop = Math.max(0, top - clientHeight / 3);
    this.draw();
    this.shown.querySelector('.here')?.scrollIntoView({ block: 'nearest', inline: 'nearest' });
  }
}

// ---- what the map says ----

/** A map with an answer for each position, and the positions at which answers may change. */
class Answers {
  constructor(map, { NO_ID, Bias, Direction }) {
    Object.assign(this, { map, NO_ID, Bias, Direction });
    this.tokens = map.tokens();
    this.count = this.tokens.length / TOKEN;
    this.lines = new Map();
  }

  position(index) {
    return { line: this.tokens[TOKEN * index], column: this.tokens[TOKEN * index + 1] };
  }

  /** The index of the first token after a position. */
  after({ line, column }) {
    return firstOf(0, this.count, (i) => this.compare(i, line, column) > 0);
  }

  /** The index of the first token at or after a position. */
  from({ line, column }) {
    return firstOf(0, this.count, (i) => this.compare(i, line, column) >= 0);
  }

  /** Whether a token is before (below 0), at (0) or after a position. */
  compare(index, line, column) {
    return this.tokens[TOKEN * index] - line || this.tokens[TOKEN * index + 1] - column;
  }

  /** What a generated position comes from. */
  at({ line, column }) {
    const token = this.map.traceToken(line, column);
    const original = token === null ? null : this.map.trace(line, column);
    return { line, column, index: token?.index ?? null, sourceId: original === null ? null : token.sourceId, original };
  }

  /** Where the next answer begins. Of several tokens at one position, the last one answers from the next column on. */
  next(position) {
    const k = this.after(position);
    const several = k >= 2 && this.compare(k - 1, position.line, position.column) === 0 && this.compare(k - 2, position.line, position.column) === 0;
    if (several) return { line: position.line, column: position.column + 1 };
    return k < this.count ? this.position(k) : null;
  }

  /** Where the answer before begins. */
  previous({ line, column }) {
    const last = this.from({ line, column }) - 1;
    if (last < 0) return null;
    const found = this.position(last);
    const several = last > 0 && this.compare(last - 1, found.line, found.column) === 0;
    const isFurther = found.line < line || found.column + 1 < column;
    return several && isFurther ? { line: found.line, column: found.column + 1 } : found;
  }

  /** The same column, or the nearest answer to it, on the next line with tokens (`step` 1) or the one before (-1). */
  vertical({ line, column }, step) {
    const index = step > 0 ? this.from({ line: line + 1, column: 0 }) : this.from({ line, column: 0 }) - 1;
    if (index < 0 || index >= this.count) return null;
    const target = this.position(index).line;
    const token = this.map.traceToken(target, column, this.Bias.CLAMPED);
    return { line: target, column: token.generatedColumn };
  }

  /** The pieces of all of the code, some at a time. */
  *allPieces() {
    for (let begin = { line: 0, column: 0 }, at = BLOCK; begin !== END; at += BLOCK) {
      const end = at < this.count ? this.position(at) : END;
      yield this.map.pieces(begin, end);
      begin = end;
    }
  }

  /** The columns of a line of a source from which something is generated, in order. */
  columns(sourceId, line) {
    const key = `${sourceId}:${line}`;
    if (!this.lines.has(key)) {
      if (this.lines.size > 1000) this.lines.clear();
      const found = this.map.allGenerated(sourceId, line, 0, this.Direction.ON_LINE);
      const columns = Array.from(found, (index) => this.tokens[TOKEN * index + 3]);
      this.lines.set(key, [...new Set(columns)].sort((a, b) => a - b));
    }
    return this.lines.get(key);
  }

  /** The first generated position of an original one; null if there is none. */
  generated(sourceId, { line, column }, direction) {
    const token = this.map.generated(sourceId, line, column, direction);
    return token === null ? null : { line: token.generatedLine, column: token.generatedColumn };
  }
}

/** The part of a row that a piece of the code takes; none if it takes nothing of it. A piece may go over several lines. */
function cutTo({ begin, end, index }, { line, from, to }, nameOf) {
  const start = begin.line < line ? 0 : begin.line > line ? to : begin.column;
  const stop = end.line > line ? to : end.line < line ? from : end.column;
  const part = { from: Math.max(from, start), to: Math.min(to, stop), name: nameOf(index), key: `${index ?? ''} ${line} ${start}` };
  return part.from < part.to ? [part] : [];
}

/** The parts of rows of the code. Where no token answers, or one without a source, it is grey. */
function codeParts({ map, tokens, NO_ID }, rows) {
  const last = rows[rows.length - 1];
  const pieces = map.pieces({ line: rows[0].line, column: rows[0].from }, { line: last.line, column: last.to });
  const isMapped = (index) => index !== null && tokens[TOKEN * index + 4] !== NO_ID;
  const nameOf = (index) => (isMapped(index) ? (index % 2 === 0 ? 'even' : 'odd') : 'none');
  return rows.map((row) => pieces.flatMap((piece) => cutTo(piece, row, nameOf)));
}

/** The parts of a row of a source: each from a column from which something is generated to the next one. */
function sourceParts(columns, { line, from, to }) {
  const parts = [];
  let k = firstOf(0, columns.length, (i) => columns[i] > from) - 1;
  for (let at = from; at < to; k++) {
    const end = Math.min(to, columns[k + 1] ?? to);
    const name = k < 0 ? 'none' : k % 2 === 0 ? 'even' : 'odd';
    parts.push({ from: at, to: end, name, key: k < 0 ? '' : `${line} ${columns[k]}` });
    at = end;
  }
  return parts;
}

// ---- bytes ----

/** Goes through a text from character to character. */
class Reader {
  constructor(text) {
    Object.assign(this, { text, at: 0, line: 0, column: 0 });
  }

  /** How many bytes of UTF-8 those characters have that begin before a position, and did not before. */
  bytesTo({ line, column }) {
    let bytes = 0;
    while (this.at < this.text.length && (this.line < line || (this.line === line && this.column < column))) bytes += this.step();
    return bytes;
  }

  /** Goes on by a character, and gives its bytes. */
  step() {
    const character = this.text.codePointAt(this.at);
    const units = character < 0x10000 ? 1 : 2;
    this.at += units;
    const isEnd = character === 13 ? this.text.charCodeAt(this.at) !== 10 : character === 10 || character === 0x2028 || character === 0x2029;
    this.line += isEnd ? 1 : 0;
    this.column = isEnd ? 0 : this.column + units;
    return character < 0x80 ? 1 : character < 0x800 ? 2 : units + 2;
  }
}

/** How many bytes of a code come from each source, in the form of `sourcemap size`: each character counts to what answers where it begins. */
function sizesOf(text, answers, names) {
  const bytes = new Array(names.length + 1).fill(0);
  const reader = new Reader(text);
  for (const pieces of answers.allPieces()) {
    for (const { end, index } of pieces) {
      const id = index === null ? answers.NO_ID : answers.tokens[TOKEN * index + 4];
      bytes[Math.min(id, names.length)] += reader.bytesTo(end);
    }
  }
  const named = names.map((name, id) => ({ kind: 'source', name, bytes: bytes[id], id }));
  const sizes = [...named, { kind: 'unmapped', bytes: bytes[names.length] }].filter((it) => it.bytes > 0);
  return { by: 'source', bytes: sum(bytes), sizes: sizes.sort((a, b) => b.bytes - a.bytes) };
}

// ---- the page ----

/** The sides of the page, what is chosen, and what is shown: what is pointed at, or else what is chosen. */
class Page {
  constructor(data, answers) {
    Object.assign(this, { data, answers, chosen: null, shown: null, sourceId: null, also: new Set(), hovered: null, mouse: '' });
    const { map } = answers;
    this.code = new Pane(element('code'), {
      partsOf: (rows) => codeParts(answers, rows),
      markOf: (key) => this.markOfCode(key),
    });
    this.original = new Pane(element('original'), {
      partsOf: (rows) => rows.map((row) => sourceParts(this.sourceId === null ? [] : answers.columns(this.sourceId, row.line), row)),
      markOf: (key) => this.markOfSource(key),
    });
    this.sources = map.sources;
    this.names = this.sources.map((path) => (path === '' ? '(no path)' : path));
    this.code.setText(data.code.text);
    this.fillSources();
    this.listen();
  }

  markOfCode(key) {
    const [index, line, column] = key.split(' ').map((it) => (it === '' ? null : Number(it)));
    const { shown } = this;
    if (shown === null) return { here: false, also: false };
    const isUnmapped = shown.index === null && index === null && line === shown.line && column <= shown.column && this.nextColumn(shown) > column;
    const here = isUnmapped || (index !== null && index === shown.index);
    return { here, also: !here && index !== null && this.also.has(index) };
  }

  /** Where on its line the answer after a position begins. */
  nextColumn(position) {
    const next = this.answers.next(position);
    return next !== null && next.line === position.line ? next.column : Infinity;
  }

  markOfSource(key) {
    const original = this.shown?.original;
    const here = key !== '' && Boolean(original) && this.shown.sourceId === this.sourceId && key === `${original.line} ${original.column}`;
    return { here, also: false };
  }

  fillSources() {
    const { map } = this.answers;
    const options = this.names.map((name, id) => {
      const it = made('option', '', map.getSourceContent(id) === null ? `${name} (no content)` : name);
      it.value = String(id);
      return it;
    });
    element('source').replaceChildren(...options);
    if (this.sources.length > 0) this.openSource(0);
    else this.tellNote('The map has no sources.');
  }

  /** Shows how many bytes of the code come from each source. */
  showSizes() {
    element('ways').append(' A source is shown below.');
    showSizes(sizesOf(this.data.code.text, this.answers, this.names), ({ id }) => {
      if (id === undefined) return;
      this.openSource(id);
      element('answer').textContent = `Source: ${this.names[id]}`;
    });
  }

  tellNote(text) {
    element('note').textContent = text;
    element('note').hidden = text === '';
    element('original').hidden = text !== '';
  }

  openSource(id) {
    if (this.sourceId === id) return;
    this.sourceId = id;
    element('source').value = String(id);
    const content = this.answers.map.getSourceContent(id);
    element('original').setAttribute('aria-label', `Source ${this.sources[id]}`);
    this.tellNote(content === null ? 'The map has no content of this source. Where the code comes from is said below.' : '');
    this.original.setText(content ?? '');
  }

  /** Shows what a generated position comes from, on both sides; `from` is the pane that is not to move. */
  show(position, from = null) {
    if (position === null) return;
    this.shown = this.answers.at(position);
    const { original, sourceId } = this.shown;
    this.also = new Set(original === null ? [] : this.answers.map.allGenerated(sourceId, original.line, original.column));
    if (original !== null && from !== this.original) this.openSource(sourceId);
    this.code.mark();
    this.original.mark();
    if (from !== this.code) this.code.scrollTo(this.shown);
    if (original !== null && from !== this.original && !element('original').hidden) this.original.scrollTo(original);
    this.tell();
  }

  /** Says what is shown. */
  tell() {
    const { original } = this.shown;
    const place = `${this.data.code.name} ${shownPlace(this.shown)}`;
    const name = original?.name ? `, name ${original.name}` : '';
    const said = this.shown.index === null ? 'no mapping answers' : 'mapped to no source';
    element('answer').textContent = original === null ? `${place}: ${said}` : `${place} → ${original.source} ${shownPlace(original)}${name}`;
  }

  choose(position, from = null) {
    if (position === null) return;
    this.chosen = position;
    this.hovered = null;
    this.show(position, from);
  }

  // -- keys --

  keyInCode(key) {
    const at = this.chosen ?? { line: 0, column: 0 };
    const { answers } = this;
    if (this.chosen === null) return answers.count > 0 ? answers.position(0) : null;
    if (key === 'ArrowRight') return answers.next(at);
    if (key === 'ArrowLeft') return answers.previous(at);
    if (key === 'ArrowDown') return answers.vertical(at, 1);
    if (key === 'ArrowUp') return answers.vertical(at, -1);
    if (key === 'Home') return { line: at.line, column: 0 };
    return null;
  }

  keyInSource(key) {
    const { answers, sourceId } = this;
    if (sourceId === null) return null;
    const original = this.shown?.sourceId === sourceId ? this.shown.original : null;
    const found = original === null ? this.onLines(0, 1, 0) : this.stepInSource(key, original);
    return found === null ? null : answers.generated(sourceId, found, answers.Direction.AT);
  }

  stepInSource(key, { line, column }) {
    const columns = this.answers.columns(this.sourceId, line);
    const k = columns.indexOf(column);
    if (key === 'ArrowRight') return k + 1 < columns.length ? { line, column: columns[k + 1] } : this.onLines(line + 1, 1, 0);
    if (key === 'ArrowLeft') return k > 0 ? { line, column: columns[k - 1] } : this.onLines(line - 1, -1, Infinity);
    if (key === 'ArrowDown') return this.onLines(line + 1, 1, column);
    if (key === 'ArrowUp') return this.onLines(line - 1, -1, column);
    if (key === 'Home') return { line, column: columns[0] };
    return null;
  }

  /** The column at or before this one, else the first, on the next line of the source that has any. */
  onLines(line, step, column) {
    for (let at = line; at >= 0 && at < this.original.lines.length; at += step) {
      const columns = this.answers.columns(this.sourceId, at);
      if (columns.length > 0) return { line: at, column: columns.findLast((it) => it <= column) ?? columns[0] };
    }
    return null;
  }

  // -- what is listened to --

  listen() {
    this.listenIn(this.code, (key) => this.keyInCode(key), (key) => this.codeAt(key));
    this.listenIn(this.original, (key) => this.keyInSource(key), (key) => this.sourceAt(key));
    element('source').addEventListener('change', () => this.openSource(Number(element('source').value)));
    element('sizes').addEventListener('toggle', () => this.showSizes(), { once: true });
    element('sizes').hidden = false;
    document.addEventListener('keydown', (event) => {
      const isText = event.target instanceof HTMLInputElement || event.target instanceof HTMLSelectElement;
      if (event.key !== '/' || isText) return;
      event.preventDefault();
      element('query').focus();
    });
  }

  /** The generated position of a part of the code, and of a source. */
  codeAt(key) {
    const [, line, column] = key.split(' ').map(Number);
    return { line, column };
  }

  sourceAt(key) {
    if (key === '') return null;
    const [line, column] = key.split(' ').map(Number);
    return this.answers.generated(this.sourceId, { line, column }, this.answers.Direction.AT);
  }

  /** Whether the mouse itself moved, and not the page below it. */
  isMoved({ screenX, screenY }) {
    const place = `${screenX} ${screenY}`;
    const isMoved = place !== this.mouse;
    this.mouse = place;
    return isMoved;
  }

  listenIn(pane, onKey, positionOf) {
    const { root } = pane;
    const keyOf = (event) => event.target.closest('[data-key]')?.dataset.key ?? null;
    root.addEventListener('keydown', (event) => {
      if (event.ctrlKey || event.metaKey || event.altKey || !/^(Arrow|Home)/.test(event.key)) return;
      event.preventDefault();
      this.choose(onKey(event.key));
    });
    root.addEventListener('click', (event) => {
      const key = keyOf(event);
      if (key !== null) this.choose(positionOf(key), pane);
    });
    root.addEventListener('pointermove', (event) => {
      const key = keyOf(event);
      if (event.pointerType !== 'mouse' || !this.isMoved(event) || key === null || key === this.hovered) return;
      this.hovered = key;
      this.show(positionOf(key), pane);
    });
    root.addEventListener('pointerleave', () => {
      this.hovered = null;
      if (this.chosen !== null) this.show(this.chosen, pane);
    });
  }
}

// ---- the search ----

const PLACE = /^(?:(.+):)?(\d+):(\d+)$/;

/** What a search finds: generated positions, and what is said if there are none. */
function search(answers, query) {
  const place = PLACE.exec(query);
  if (place === null) return searchName(answers, query);
  const position = { line: Number(place[2]) - 1, column: Number(place[3]) - 1 };
  if (position.line < 0 || position.column < 0 || position.line > 0xffffffff || position.column > 0xffffffff) return { found: [], why: 'Lines and columns count from 1.' };
  return place[1] === undefined ? { found: [position], why: '' } : searchOriginal(answers, place[1], position);
}

function searchOriginal({ map, tokens, Direction }, path, { line, column }) {
  const exact = map.sources.indexOf(path);
  const id = exact >= 0 ? exact : map.sources.findIndex((it) => it.endsWith(`/${path}`));
  if (id < 0) return { found: [], why: `No source is ${path}, or ends in it.` };
  const found = Array.from(map.allGenerated(id, line, column, Direction.FOR), (i) => ({ line: tokens[TOKEN * i], column: tokens[TOKEN * i + 1] }));
  return { found, why: 'Nothing is generated from there.' };
}

/** The tokens whose names are the text, or else those whose names have it in them. */
function searchName({ map, tokens, count }, text) {
  const small = text.toLowerCase();
  const exact = new Set(map.names.flatMap((name, id) => (name === text ? [id] : [])));
  const ids = exact.size > 0 ? exact : new Set(map.names.flatMap((name, id) => (name.toLowerCase().includes(small) ? [id] : [])));
  const found = [];
  for (let i = 0; i < count; i++) {
    if (ids.has(tokens[TOKEN * i + 5])) found.push({ line: tokens[TOKEN * i], column: tokens[TOKEN * i + 1] });
  }
  return { found, why: `No name of the map has ${text} in it.` };
}

class Search {
  constructor(page) {
    Object.assign(this, { page, query: null, found: [], at: 0 });
    element('search').addEventListener('submit', (event) => {
      event.preventDefault();
      this.go(1);
    });
    element('previous').addEventListener('click', () => this.go(-1));
    element('query').addEventListener('keydown', (event) => this.onKey(event));
    element('query').addEventListener('input', () => (element('found').textContent = ''));
  }

  onKey(event) {
    if (event.key === 'Escape') element('code').focus();
    if (event.key !== 'Enter' || !event.shiftKey) return;
    event.preventDefault();
    this.go(-1);
  }

  /** The next of what is found, or the one before. */
  go(step) {
    const query = element('query').value.trim();
    if (query === '') return;
    const isNew = query !== this.query;
    if (isNew) Object.assign(this, search(this.page.answers, query), { query });
    const { length } = this.found;
    this.at = isNew ? 0 : (this.at + step + length) % length;
    element('found').textContent = length === 0 ? this.why : `${this.at + 1} of ${length}`;
    if (length > 0) this.page.choose(this.found[this.at]);
  }
}

// ---- the table, and the beginning ----

function fillReport({ report, map }) {
  const rows = report.map(({ kind, text }) => {
    const row = made('tr', kind);
    row.append(made('td', '', kind), made('td', '', text));
    return row;
  });
  element('rows').replaceChildren(...rows);
  element('checked').textContent = map.name;
  const wrong = report.filter((it) => it.kind === 'wrong').length;
  const notes = report.filter((it) => it.kind === 'note').length;
  const count = (number, word) => `${number} ${word}${number === 1 ? '' : 's'}`;
  element('summary').textContent = wrong === 0 ? `Check: nothing is wrong, ${count(notes, 'note')}` : `Check: ${wrong} wrong, ${count(notes, 'note')}`;
  element('report').hidden = false;
  element('report').open = wrong > 0;
}

async function begin() {
  const library = await load(bytesIn('module'));
  const data = dataOf();
  document.title = `${data.code.name}: source map`;
  element('title').textContent = data.code.name;
  element('code-name').textContent = `Code: ${data.code.name}, map: ${data.map.name}`;
  fillReport(data);
  const { map } = library.SourceMap.found(data.map.text);
  map.applySourceRoot();
  const page = new Page(data, new Answers(map, library));
  new Search(page);
  page.choose(page.keyInCode(''));
  if (page.shown === null) element('answer').textContent = 'The map has no mappings.';
  element('code').focus({ preventScroll: true });
}

begin().catch((error) => {
  element('answer').textContent = `This page cannot be shown: ${error.message}`;
});
