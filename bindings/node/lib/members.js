'use strict';
// The members of a map that extend the format, by names that begin with `x_`. The library drops them; here they are kept beside a map, and
// written again with it.

const native = require('./native.js');
const { Code } = require('./constants.js');
const { refusal } = require('./errors.js');

const decoder = new TextDecoder();
const encoder = new TextEncoder();

const KNOWN = 'x_google_ignoreList';

/** The value of a JSON text, which may be that of a map as it is found: in a data URL, behind a byte order mark or a line that keeps it
 *  from being run as a script. */
function valueOf(given) {
  const text = typeof given === 'string' ? given : decoder.decode(given);
  const json = text.startsWith('data:') ? native.decodeDataURL(text) : text;
  return JSON.parse(json.replace(/^\ufeff?(?:\)\]\}'[^\n]*\n)?/, ''));
}

/** The members of the text of a map, if options ask for them; null if there are none. */
function keptMembers(given, options) {
  if (!options?.keepUnknown) return null;
  const members = Object.entries(valueOf(given)).filter(([key]) => key.startsWith('x_') && key !== KNOWN);
  return members.length === 0 ? null : Object.freeze(Object.fromEntries(members));
}

/** Texts of so many bytes of UTF-8 fit into a limit, if there is one; else it throws. */
function checkLimit(bytes, limit) {
  if (bytes > limit) throw refusal(Code.TOO_LARGE);
}

/** The JSON text of a map with its members, of at most so many bytes; `write` gives its own, of at most so many. */
function textWith(members, limit, write) {
  const more = JSON.stringify(members).slice(1);
  const { length } = encoder.encode(more);
  checkLimit(length, limit);
  return `${write(limit === undefined ? undefined : limit - length).slice(0, -1)},${more}`;
}

function bytesOf(text) {
  return typeof Buffer === 'function' ? Buffer.from(text) : encoder.encode(text);
}

function base64Of(bytes) {
  if (typeof Buffer === 'function') return bytes.toString('base64');
  return btoa(Array.from(bytes, (it) => String.fromCharCode(it)).join(''));
}

/** The data URL of a text, which begins as another one does. */
function dataURLOf(text, other, limit) {
  const url = other.slice(0, other.indexOf(',') + 1) + base64Of(bytesOf(text));
  checkLimit(url.length, limit);
  return url;
}

module.exports = { valueOf, keptMembers, textWith, bytesOf, dataURLOf };
