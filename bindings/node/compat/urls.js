'use strict';
// URLs and paths, resolved as @jridgewell/resolve-uri resolves them: a path without a scheme stays one, and what is relative to
// nothing stays relative.

// What a reference begins with, from the least to the most that it says by itself.
const EMPTY = 0;
const HASH = 1;
const QUERY = 2;
const RELATIVE_PATH = 3;
const ABSOLUTE_PATH = 4;
const HOST = 5;
const SCHEME = 6;

const SCHEME_AND_HOST = /^([\w+.-]+:)\/\//;
const FILE = /^file:(?:\/\/((?![a-z]:)[^/#?]*)?)?/i;
const HOST_AND_PORT = /^([^:]*)(:\d+)?/;
const FIRST_LINE = /^.*/;

// A path that names folders and a file, and says nothing else: it stands behind its base as it is.
const PLAIN = /^(?:[\w@-][\w@.-]*\/)*[\w@-][\w@.-]*$/;

const NO_AUTHORITY = { user: '', host: '', port: '', isWhole: true };

/** A reference in its parts: each is empty, or has the signs that belong to it. */
function parts(kind, scheme, authority, rest) {
  const { user, host, port, isWhole } = authority;
  const { path, query, hash } = tail(isWhole ? rest : '');
  return { kind, scheme, user, host, port, path, query, hash };
}

/** The parts behind the host. The hash is cut at the end of its line. */
function tail(rest) {
  const hashAt = rest.indexOf('#');
  const beforeHash = hashAt < 0 ? rest : rest.slice(0, hashAt);
  const queryAt = beforeHash.indexOf('?');
  return {
    path: queryAt < 0 ? beforeHash : beforeHash.slice(0, queryAt),
    query: queryAt < 0 ? '' : beforeHash.slice(queryAt),
    hash: hashAt < 0 ? '' : FIRST_LINE.exec(rest.slice(hashAt))[0],
  };
}

/** User, host and port. If something else follows the host, nothing behind it counts. */
function authorityOf(text) {
  const user = text.slice(0, text.indexOf('@') + 1);
  const [whole, host, port = ''] = HOST_AND_PORT.exec(text.slice(user.length));
  return { user, host, port, isWhole: user.length + whole.length === text.length };
}

/** A reference with a host, of what follows its `//`. */
function withHost(kind, scheme, text) {
  const end = text.search(/[/#?]/);
  const at = end < 0 ? text.length : end;
  const found = parts(kind, scheme, authorityOf(text.slice(0, at)), text.slice(at));
  if (!found.path) found.path = '/';
  return found;
}

/** A file URL, which needs no `//` and no host, and has none that looks like the drive of a path. */
function fileUrl(text) {
  const [whole, host = ''] = FILE.exec(text);
  const found = parts(SCHEME, 'file:', { ...NO_AUTHORITY, host }, text.slice(whole.length));
  if (!found.path.startsWith('/')) found.path = `/${found.path}`;
  return found;
}

/** A reference that begins with its path, its query or its hash, or says nothing. The path gets a slash in front. */
function relative(text) {
  const kind = text === '' ? EMPTY : text[0] === '#' ? HASH : text[0] === '?' ? QUERY : RELATIVE_PATH;
  return parts(kind, '', NO_AUTHORITY, `/${text}`);
}

function parse(text) {
  if (text.startsWith('//')) return withHost(HOST, '', text.slice(2));
  if (text.startsWith('/')) return parts(ABSOLUTE_PATH, '', NO_AUTHORITY, text);
  if (text.startsWith('file:')) return fileUrl(text);
  const scheme = SCHEME_AND_HOST.exec(text);
  return scheme ? withHost(SCHEME, scheme[1], text.slice(scheme[0].length)) : relative(text);
}

/** A path without empty pieces, `.` and `..`. A `..` that leads out of a relative path stays, and so does a slash at the end. */
function normalized(path, isRelative) {
  const kept = [];
  let depth = 0;
  let isFolder = false;
  for (const piece of path.split('/').slice(1)) {
    const leavesOne = piece === '..' && depth > 0;
    isFolder = piece === '' || leavesOne;
    if (leavesOne) {
      depth--;
      kept.pop();
    } else if (piece === '..' ? isRelative : piece !== '' && piece !== '.') {
      depth += piece === '..' ? 0 : 1;
      kept.push(piece);
    }
  }
  const endsInSlash = isFolder && kept.length > 0 && kept.at(-1) !== '..';
  return `/${kept.join('/')}${endsInSlash ? '/' : ''}`;
}

/** A path that is relative to the folder of a base, or the path of the base where it says nothing. */
function merged(path, base) {
  const basePath = normalized(base.path, base.kind <= RELATIVE_PATH);
  if (path === '/') return basePath;
  const folder = basePath.endsWith('/..') ? basePath : basePath.slice(0, basePath.lastIndexOf('/') + 1);
  return folder + path;
}

/** Gives a reference what it does not say by itself. */
function complete(url, base) {
  if (url.kind === EMPTY) url.hash = base.hash;
  if (url.kind <= HASH) url.query = base.query;
  if (url.kind <= RELATIVE_PATH) url.path = merged(url.path, base);
  if (url.kind <= ABSOLUTE_PATH) {
    url.user = base.user;
    url.host = base.host;
    url.port = base.port;
  }
  url.scheme = base.scheme;
  url.kind = Math.max(url.kind, base.kind);
}

const startsWithDot = (text) => /^[.?#]/.test(text);

/** A relative path: with `./` in front if what it was resolved from has a dot there. */
function relativePath(path, end, from) {
  if (path === '') return end || '.';
  return (startsWithDot(from) && !startsWithDot(path) ? './' : '') + path + end;
}

/**
 * Resolves a URL or a path relative to a base, which is one too; an empty base, or none, is nothing.
 */
function resolve(input, base) {
  if (!input && !base) return '';
  const url = parse(input);
  if (base && url.kind !== SCHEME) complete(url, parse(base));
  const path = normalized(url.path, url.kind <= RELATIVE_PATH);
  const end = url.query + url.hash;
  if (url.kind <= QUERY) return end;
  if (url.kind === RELATIVE_PATH) return relativePath(path.slice(1), end, base || input);
  if (url.kind === ABSOLUTE_PATH) return path + end;
  return `${url.scheme}//${url.user}${url.host}${url.port}${path}${end}`;
}

/** The part of a path up to its last slash. */
function folderOf(path) {
  return path ? path.slice(0, path.lastIndexOf('/') + 1) : '';
}

/** A function that resolves the sources of a map: against its source root, and that against the URL of the map. Roots are folders. */
function sourceResolver(sourceRoot, mapUrl) {
  const asFolder = (base) => (base && !base.endsWith('/') ? `${base}/` : base);
  const from = asFolder(resolve(sourceRoot || '', asFolder(folderOf(mapUrl))));
  const isAppended = from === '' || resolve('x', from) === `${from}x`;
  return (source) => {
    const path = source || '';
    return isAppended && PLAIN.test(path) ? from + path : resolve(path, from);
  };
}

module.exports = { resolve, sourceResolver };
