// What is in treemap.html, in both pages: a map of areas, each as large as its share of the bytes, and a table of them. Of its data `by` says
// how bytes are told, `bytes` are all of them, and `sizes` the objects of `sourcemap size --json`.

/** The colours of treemap.css in words, in the order of its classes; the greatest parts of what is shown have one each. */
const COLOURS = ['Sky blue', 'Orange', 'Green', 'Yellow', 'Purple', 'Vermilion'];
/** Of deeper folders, as names of sources may make them up, the parts are not told apart. */
const DEEPEST = 64;
/** The height of a label, the least size of a part that has one, and the least area of one that is drawn inside another. */
const LINE = 18;
const LABELLED = [44, 22];
const LEAST_AREA = 64;
// What is hidden, or would turn the text around it, is shown as the program prints it.
const HIDDEN = /[\u0000-\u001f\u007f-\u009f\u061c\u200e\u200f\u202a-\u202e\u2066-\u2069]/g;

const shown = (text) => text.replace(HIDDEN, (it) => `\\u${it.charCodeAt(0).toString(16).padStart(4, '0')}`);
const counted = (number, what) => `${number.toLocaleString('en')} ${what}${number === 1 ? '' : 's'}`;
/** Rounded down to a tenth, as the program does. */
const percentOf = (bytes, all) => `${(all && Math.floor((1000 * bytes) / all) / 10).toFixed(1)} %`;
const sum = (numbers) => numbers.reduce((a, b) => a + b, 0);

// ---- what is in what ----

const partOf = (name, bytes, inside = '') => ({ name, bytes, label: name.slice(inside.length), parts: [], outer: undefined, isHatched: false });

/** Puts a part into another one, the outer one. */
function put(outer, part) {
  outer.parts.push(Object.assign(part, { outer }));
  return part;
}

/** The folders that a path names, from the outermost one on: up to each slash, but where slashes stand in a row up to the last one. */
function foldersOf(path) {
  const found = [];
  for (let at = path.indexOf('/') + 1; at > 0 && at < path.length && found.length < DEEPEST; at = path.indexOf('/', at) + 1) {
    const folder = path.slice(0, at);
    if (path[at] !== '/' && !folder.endsWith('/./')) found.push(folder);
  }
  return found;
}

/** Puts sources into the folders that their paths name. */
function putSources(root, sizes) {
  const folders = new Map();
  for (const { name, bytes, id } of sizes) {
    let outer = root;
    for (const path of foldersOf(name)) {
      if (!folders.has(path)) folders.set(path, put(outer, partOf(path, 0, outer.name)));
      outer = folders.get(path);
      outer.bytes += bytes;
    }
    put(outer, Object.assign(partOf(name, bytes, outer.name), { id }));
  }
}

/** The folder that another one is in, of those that are told. Those above the current one are in each other. */
function outerOf(name, folders) {
  const climb = name === './' ? '' : name;
  if (/^(?:\.\.\/)*$/.test(climb)) {
    const outer = [...folders.keys()].filter((it) => /^(?:\.\.\/)+$/.test(it) && it.length > climb.length);
    return folders.get(outer.sort((a, b) => a.length - b.length)[0]);
  }
  const named = foldersOf(name).findLast((it) => folders.has(it));
  return folders.get(named ?? (/^(?:[/\\]|[a-z][a-z0-9+.-]*:)/i.test(name) ? undefined : './'));
}

/** Puts folders, of which each has the bytes of those in it, into one another. What else they have is a part too. */
function putFolders(root, sizes) {
  const folders = new Map(sizes.filter(({ name }) => foldersOf(name).length < DEEPEST).map(({ name, bytes }) => [name, partOf(name, bytes)]));
  for (const [name, folder] of folders) {
    const outer = outerOf(name, folders) ?? root;
    if (name.startsWith(outer.name)) folder.label = name.slice(outer.name.length);
    put(outer, folder);
  }
  for (const folder of folders.values()) {
    const rest = folder.bytes - sum(folder.parts.map((it) => it.bytes));
    if (folder.parts.length > 0 && rest > 0) put(folder, Object.assign(partOf(`files in ${folder.name}`, rest), { label: 'files' }));
  }
}

/** A folder without the folders that are all that is in it, and the greatest parts first. */
function tidied(part) {
  let inner = part;
  while (inner.outer && inner.parts.length === 1 && inner.parts[0].parts.length > 0) inner = inner.parts[0];
  if (inner !== part) Object.assign(part, { name: inner.name, label: part.label + inner.name.slice(part.name.length), parts: inner.parts });
  for (const it of part.parts) tidied(Object.assign(it, { outer: part }));
  part.parts.sort((a, b) => b.bytes - a.bytes);
  return part;
}

/** All bytes, with their parts. */
function treeOf({ by, bytes, sizes }) {
  const root = partOf('', bytes);
  const named = sizes.filter((it) => it.name !== undefined && it.bytes > 0);
  if (by === 'source') putSources(root, named);
  else if (by === 'folder') putFolders(root, named);
  else for (const it of named) put(root, partOf(it.name, it.bytes));
  for (const it of sizes) {
    if (it.name === undefined && it.bytes > 0) put(root, Object.assign(partOf(`[${it.kind}]`, it.bytes), { isHatched: it.kind === 'unmapped' }));
  }
  return tidied(root);
}

// ---- areas ----

/** How far from a square the longest of a row is, for the sum, the greatest and the least of its sizes, and the square of its length. */
const worst = (total, most, least, square) => Math.max((square * most) / total ** 2, total ** 2 / (square * least));

/** How many sizes from one on make up a row whose areas are as near to squares as they can be. */
function rowEnd(sizes, from, square) {
  let total = sizes[from];
  for (let to = from + 1; to < sizes.length; to++) {
    const next = total + sizes[to];
    if (worst(next, sizes[from], sizes[to], square) > worst(total, sizes[from], sizes[to - 1], square)) return to;
    total = next;
  }
  return sizes.length;
}

/** The boxes of sizes, the greatest first, in a box: row for row along its shorter side (Bruls, Huizing and van Wijk, Squarified Treemaps). */
function boxesOf(sizes, { x, y, width, height }) {
  const boxes = [];
  let left = sum(sizes);
  while (boxes.length < sizes.length) {
    const [from, isWide] = [boxes.length, width >= height];
    const [short, long] = isWide ? [height, width] : [width, height];
    const row = sizes.slice(from, rowEnd(sizes, from, (short * left) / Math.max(long, 1e-9)));
    const total = sum(row);
    const thick = (long * total) / left;
    let at = 0;
    for (const it of row) {
      const along = (short * it) / total;
      boxes.push(isWide ? { x, y: y + at, width: thick, height: along } : { x: x + at, y, width: along, height: thick });
      at += along;
    }
    if (isWide) [x, width] = [x + thick, width - thick];
    else [y, height] = [y + thick, height - thick];
    left -= total;
  }
  return boxes;
}

// ---- what is shown ----

class Treemap {
  /** `choose` is told what is gone into that has no parts. */
  constructor(data, choose) {
    Object.assign(this, { all: data.bytes, root: treeOf(data), parts: new WeakMap(), map: element('map'), choose });
    this.listen();
    this.open(this.root);
    new ResizeObserver(() => this.draw()).observe(this.map);
  }

  textOf({ name, bytes, parts }) {
    const inside = parts.length > 0 ? `, in ${counted(parts.length, 'part')}` : '';
    return `${shown(name)}: ${counted(bytes, 'byte')}, ${percentOf(bytes, this.all)}${inside}`;
  }

  listen() {
    this.map.addEventListener('keydown', (event) => this.press(event));
    this.map.addEventListener('click', ({ target }) => this.enter(this.parts.get(target.closest('[role="option"]'))));
    for (const kind of ['pointerover', 'focusin']) this.map.addEventListener(kind, ({ target }) => this.say(this.parts.get(target.closest('.part'))));
  }

  say(part) {
    element('said').textContent = this.textOf(part ?? { ...this.folder, name: this.folder.name || 'All' });
  }

  /** Shows what is in a folder; one of its parts is that from which arrows go on. */
  open(folder, at = 0) {
    Object.assign(this, { folder, at });
    this.map.setAttribute('aria-label', `Bytes of ${shown(folder.name) || 'all'}`);
    this.say();
    this.draw();
    this.showPath();
    this.showLegend();
  }

  /** Opens a folder and goes into it; anything else is gone to and chosen. */
  enter(part) {
    if (!part) return;
    const isFolder = part.parts.length > 0;
    if (isFolder) this.open(part);
    else this.at = this.folder.parts.indexOf(part);
    this.focus();
    if (!isFolder) this.choose(part);
  }

  leave() {
    const { outer } = this.folder;
    if (outer) this.open(outer, outer.parts.indexOf(this.folder));
    this.focus();
  }

  press(event) {
    const last = this.folder.parts.length - 1;
    const steps = { ArrowRight: this.at + 1, ArrowDown: this.at + 1, ArrowLeft: this.at - 1, ArrowUp: this.at - 1, Home: 0, End: last };
    const { key } = event;
    if (event.ctrlKey || event.altKey || event.metaKey) return;
    if (key in steps) this.at = Math.min(Math.max(steps[key], 0), last);
    else if (key !== 'Enter' && key !== 'Escape' && key !== 'Backspace') return;
    event.preventDefault();
    if (key === 'Enter') this.enter(this.folder.parts[this.at]);
    else if (key in steps) this.focus();
    else this.leave();
    this.map.scrollIntoView({ block: 'nearest' });
  }

  focus() {
    for (const [i, it] of [...this.map.children].entries()) {
      it.tabIndex = i === this.at ? 0 : -1;
      it.setAttribute('aria-selected', String(i === this.at));
    }
    this.map.children[this.at]?.focus({ preventScroll: true });
  }

  draw() {
    const isIn = this.map.contains(document.activeElement);
    const { width, height } = this.map.getBoundingClientRect();
    this.map.replaceChildren(...this.drawn(this.folder, { x: 0, y: 0, width, height }, (i) => `colour${i}`));
    for (const [i, it] of [...this.map.children].entries()) {
      it.setAttribute('role', 'option');
      it.setAttribute('aria-label', this.textOf(this.folder.parts[i]));
      it.setAttribute('aria-selected', String(i === this.at));
      it.tabIndex = i === this.at ? 0 : -1;
    }
    if (isIn) this.focus();
  }

  /** The elements of the parts of a folder in a box. */
  drawn(folder, room, classOf) {
    const boxes = boxesOf(folder.parts.map((it) => it.bytes), room);
    return folder.parts.map((part, i) => this.drawnPart(part, boxes[i], part.isHatched ? 'hatched' : classOf(i)));
  }

  drawnPart(part, { x, y, width, height }, name) {
    const it = made('div', `part ${name}`);
    Object.assign(it.style, { left: `${x}px`, top: `${y}px`, width: `${width}px`, height: `${height}px` });
    this.parts.set(it, part);
    if (width < LABELLED[0] || height < LABELLED[1]) return it;
    const lines = [shown(part.label), counted(part.bytes, 'byte'), percentOf(part.bytes, this.all)];
    const isFolder = part.parts.length > 0;
    for (const line of isFolder || height < 3 * LINE + 4 ? [lines.join(' · ')] : lines) it.append(made('span', 'label', line));
    const room = { x: 4, y: LINE + 2, width: width - 8, height: height - LINE - 6 };
    const isRoom = isFolder && room.width > 0 && room.height > 0 && (room.width * room.height * part.parts[0].bytes) / part.bytes >= LEAST_AREA;
    if (isRoom) it.append(...this.drawn(part, room, () => name).filter((inner) => parseFloat(inner.style.width) * parseFloat(inner.style.height) >= LEAST_AREA));
    return it;
  }

  /** The folders that the one that is shown is in, each to be gone back to. */
  showPath() {
    const outer = [];
    for (let it = this.folder; it; it = it.outer) outer.unshift(it);
    const buttons = outer.map((it) => Object.assign(made('button', '', shown(it.label) || 'All'), { type: 'button', onclick: () => this.open(it) }));
    buttons.at(-1).setAttribute('aria-current', 'true');
    element('path').replaceChildren(...buttons);
  }

  /** What has which colour, in words. */
  showLegend() {
    const told = this.folder.parts.map((part, i) => ({ part, name: part.isHatched ? 'Hatched' : COLOURS[i], swatch: part.isHatched ? 'hatched' : `colour${i}` }));
    const items = told.filter((it) => it.name).map(({ part, name, swatch }) => [`${name}: ${shown(part.label)}, ${percentOf(part.bytes, this.all)}`, swatch]);
    const others = told.length - items.length;
    if (others > 0) items.push([`Grey: ${others} more`, 'grey']);
    element('legend').replaceChildren(...items.map(([text, swatch]) => {
      const it = made('li', '', text);
      it.prepend(made('span', `part swatch ${swatch}`));
      return it;
    }));
  }
}

/** A row of the table. */
function rowOf(name, bytes, all) {
  const row = made('tr', '');
  const head = made('th', '', name);
  head.scope = 'row';
  row.append(head, made('td', 'count', bytes.toLocaleString('en')), made('td', 'count', percentOf(bytes, all)));
  return row;
}

/** Shows bytes. `choose` is called with each part that is chosen and has no parts. */
function showSizes(data, choose = () => {}) {
  element('bytes').replaceChildren(...data.sizes.map((it) => rowOf(shown(it.name ?? `[${it.kind}]`), it.bytes, data.bytes)));
  element('sum').replaceChildren(rowOf('total', data.bytes, data.bytes));
  if (!data.sizes.some((it) => it.bytes > 0)) {
    element('said').textContent = 'There are no bytes to show.';
    return;
  }
  for (const id of ['path', 'map', 'words']) element(id).hidden = false;
  new Treemap(data, choose);
}
