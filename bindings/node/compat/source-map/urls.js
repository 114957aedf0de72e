'use strict';
// Paths and URLs as the package source-map takes them: what has `//` for a host, with a scheme or without, is a URL, all else a path.
// A path may be relative and stay so, which the URLs of the platform can not.

const URL_FORM = /^(?:(?<scheme>[\w+.-]+):)?\/\/(?:(?<auth>\w+:\w+)@)?(?<host>[\w.-]*)(?::(?<port>\d+))?(?<path>.*)$/;
const DATA_URL = /^data:.+,.+$/;
// What is left of a root above which there is nothing: slashes alone, or a scheme with them.
const NO_FOLDER = /^(?:[^/]+:\/)?\/*$/;

/** The parts of a URL; null if it is a path. */
function urlParse(text) {
  const found = URL_FORM.exec(text);
  if (found === null) return null;
  const { scheme, auth, host, port, path } = found.groups;
  return { scheme, auth, host, port, path };
}

function urlGenerate({ scheme, auth, host, port, path }) {
  const before = scheme ? `${scheme}:` : '';
  const who = auth ? `${auth}@` : '';
  const door = port ? `:${port}` : '';
  return `${before}//${who}${host || ''}${door}${path || ''}`;
}

function isAbsolute(text) {
  return text.startsWith('/') || URL_FORM.test(text);
}

/** A path without `.`, without a name before `..`, and without `..` at the root. */
function normalizePath(path) {
  const rooted = path.startsWith('/');
  const kept = [];
  for (const part of path.split(/\/+/)) {
    if (part === '.') continue;
    const last = kept.at(-1);
    if (part !== '..') kept.push(part);
    else if (last && last !== '..') kept.pop();
    else if (!rooted) kept.push(part);
  }
  return kept.join('/') || (rooted ? '/' : '.');
}

function normalize(text) {
  const url = urlParse(text);
  if (url === null) return normalizePath(text);
  return url.path ? urlGenerate({ ...url, path: normalizePath(url.path) }) : text;
}

/** A path as it is found from a root. */
function joinPath(root, path) {
  return path.startsWith('/') ? path : normalize(`${root.replace(/\/+$/, '')}/${path}`);
}

function join(root, text) {
  const path = text === '' ? '.' : text;
  const rootURL = urlParse(root);
  const url = urlParse(path);
  if (url?.scheme || DATA_URL.test(path)) return path;
  if (url) return urlGenerate({ ...url, scheme: rootURL?.scheme });
  if (rootURL === null) return joinPath(root === '' ? '.' : root, path);
  if (!rootURL.host && !rootURL.path) return urlGenerate({ ...rootURL, host: path });
  return urlGenerate({ ...rootURL, path: joinPath(rootURL.path || '/', path) });
}

/** A path as it is told from a root; the path itself if they have no folder in common. */
function relative(root, path) {
  let folder = (root === '' ? '.' : root).replace(/\/$/, '');
  let ups = '';
  while (!path.startsWith(`${folder}/`)) {
    const cut = folder.lastIndexOf('/');
    if (cut < 0) return path;
    folder = folder.slice(0, cut);
    if (NO_FOLDER.test(folder)) return path;
    ups += '../';
  }
  return ups + path.slice(folder.length + 1);
}

/** The URL of the folder that a URL is in. */
function folderOf(mapURL) {
  const url = urlParse(mapURL);
  if (url === null) throw new Error('sourceMapURL could not be parsed');
  const cut = url.path.lastIndexOf('/');
  return cut < 0 ? mapURL : urlGenerate({ ...url, path: url.path.slice(0, cut + 1) });
}

/** A source behind its root, as it is found from the URL of its map. */
function computeSourceURL(sourceRoot, source, mapURL) {
  const path = source || '';
  const slash = sourceRoot && !sourceRoot.endsWith('/') && !path.startsWith('/') ? '/' : '';
  const rooted = `${sourceRoot || ''}${slash}${path}`;
  return normalize(mapURL ? join(folderOf(mapURL), rooted) : rooted);
}

module.exports = { urlParse, urlGenerate, isAbsolute, normalize, join, relative, computeSourceURL };
