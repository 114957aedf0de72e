'use strict';
// Where codes and maps lie, and by which name a URL asks for them.

const fs = require('node:fs');
const { basename, join, sep } = require('node:path');
const { randomBytes } = require('node:crypto');

/** The most bytes of a name in a store. */
const MOST_NAME = 1024;

const SCHEME = /^([a-zA-Z][a-zA-Z0-9+.-]+):(?:\/\/([^/?#]*))?/;
const DRIVE = /^[a-zA-Z]:[\\/]/;
// eslint-disable-next-line no-control-regex
const ODD = /[\x00-\x1f\x7f/\\]|\p{Surrogate}/u;
const ESCAPES = /(?:%[0-9a-fA-F]{2})+/g;
const ABSENT = new Set(['ENOENT', 'ENOTDIR', 'ENAMETOOLONG', 'ENXIO']);

/** A name that leads out of a store, or that no store has. */
class RefusedError extends Error {
  name = 'RefusedError';
}

/** A file or text with more bytes than the limit. */
class TooLargeError extends Error {
  name = 'TooLargeError';

  constructor(what, length, limit) {
    super(`${what} has ${length} bytes, and the limit is ${limit}`);
    this.length = length;
    this.limit = limit;
  }
}

function checkPart(part) {
  if (part === '..') throw new RefusedError("a path with the part '..'");
  if (ODD.test(part)) throw new RefusedError(`a path with the part ${JSON.stringify(part)}`);
  const length = Buffer.byteLength(part);
  if (length > 255) throw new RefusedError(`a path with a part of ${length} bytes`);
  return part;
}

function checkName(name) {
  for (const part of name.split('/')) {
    if (part === '' || part === '.') throw new RefusedError(`a path with the part '${part}'`);
    checkPart(part);
  }
  if (Buffer.byteLength(name) > MOST_NAME) throw new RefusedError(`a path of more than ${MOST_NAME} bytes`);
  return name;
}

/** A part of the path of a URL without its escapes. */
function decoded(part) {
  const utf8 = new TextDecoder('utf-8', { fatal: true, ignoreBOM: true });
  try {
    return part.replace(ESCAPES, (it) => utf8.decode(Buffer.from(it.replaceAll('%', ''), 'hex')));
  } catch {
    throw new RefusedError(`a path that is not UTF-8: ${JSON.stringify(part)}`);
  }
}

/** What stands before the path of a URL or a path, the path, and whether it has escapes. */
function originAndPath(url) {
  if (DRIVE.test(url)) return ['/', url.replaceAll('\\', '/'), false];
  const found = SCHEME.exec(url);
  if (found === null) return [url.startsWith('/') ? '/' : '', url, false];
  const [path] = url.slice(found[0].length).split(/[?#]/, 1);
  if (found[1].toLowerCase() === 'file') return ['/', path, true];
  return [`${found[1]}://${found[2] ?? ''}`.toLowerCase(), path, true];
}

/** What stands before the path of a URL; nothing of a file. */
function originOf(url) {
  const [origin] = originAndPath(url);
  return origin === '/' ? '' : origin;
}

/** The origin of a URL and the parts of its path, without those that are empty or `.`, escapes decoded. */
function partsOf(url) {
  const [origin, path, hasEscapes] = originAndPath(url);
  const parts = path.split('/').map((it) => (hasEscapes ? decoded(it) : it));
  return [origin, ...parts.filter((it) => it !== '' && it !== '.').map(checkPart)];
}

/** Which URLs are those of a store. */
class Bases {
  #folders;

  constructor(bases) {
    const pairs = typeof bases === 'string' ? [[bases, '']] : Object.entries(bases);
    // (no part has a slash, but the origin)
    this.#folders = new Map(pairs.map(([url, folder]) => [partsOf(url).join('\0'), partsOf(folder).slice(1).join('/')]));
  }

  /** The name in the store, by the longest base that the URL or path lies below; null if there is none. */
  nameOf(url) {
    const parts = partsOf(url);
    for (let count = parts.length - 1; count > 0; count--) {
      const folder = this.#folders.get(parts.slice(0, count).join('\0'));
      if (folder !== undefined) return checkName([folder, ...parts.slice(count)].filter((it) => it !== '').join('/'));
    }
    return null;
  }
}

/** A folder as a store. */
class Folder {
  constructor(path) {
    this.path = fs.realpathSync(path);
  }

  /** A path in the folder, links followed. */
  #inside(path, name) {
    const found = fs.realpathSync(path);
    const top = this.path.endsWith(sep) ? this.path : this.path + sep;
    if (found !== this.path && !found.startsWith(top)) throw new RefusedError(`${name} is a link out of the folder`);
    return found;
  }

  /** The path of a name, links followed. Throws RefusedError, and an error of the system, also if there is no file. */
  pathOf(name) {
    return this.#inside(join(this.path, ...checkName(name).split('/')), name);
  }

  /** The path of a name whose own link is not followed. */
  placeOf(name) {
    const path = join(this.path, ...checkName(name).split('/'));
    return join(this.#inside(join(path, '..'), name), basename(path));
  }

  /** A plain file, opened: its descriptor and what the system says of it; null if there is none. Who calls closes it. */
  open(name) {
    let file;
    try {
      file = fs.openSync(this.pathOf(name), fs.constants.O_RDONLY | (fs.constants.O_NONBLOCK ?? 0));
    } catch (error) {
      if (ABSENT.has(error.code)) return null;
      throw error;
    }
    const status = fs.fstatSync(file, { bigint: true });
    if (status.isFile()) return { file, status };
    fs.closeSync(file);
    return null;
  }

  get(name, limit = Infinity) {
    const opened = this.open(name);
    if (opened === null) return null;
    try {
      return readWithin(opened, name, limit);
    } finally {
      fs.closeSync(opened.file);
    }
  }
}

/** All bytes of a file, which are no more than the limit. */
function readWithin({ file, status }, name, limit) {
  if (status.size > limit) throw new TooLargeError(name, Number(status.size), limit);
  const data = fs.readFileSync(file);
  if (data.length > limit) throw new TooLargeError(name, data.length, limit);
  return data;
}

/** Puts a new file with these bytes, permissions and time in seconds in place of one, once it is on the disk. */
function replaceFile(path, data, mode, time) {
  const made = join(path, '..', `.smc-${randomBytes(8).toString('hex')}`);
  const file = fs.openSync(made, 'wx', 0o600);
  try {
    try {
      fs.writeFileSync(file, data);
      fs.fchmodSync(file, mode & 0o666);
      fs.futimesSync(file, time, time);
      fs.fsyncSync(file);
    } finally {
      fs.closeSync(file);
    }
    fs.renameSync(made, path);
  } catch (error) {
    fs.rmSync(made, { force: true });
    throw error;
  }
}

module.exports = { Bases, Folder, RefusedError, TooLargeError, checkName, decoded, originOf, readWithin, replaceFile };
