'use strict';
// The frames of stack traces, as V8, Firefox and Safari print them, in time linear in the text.

/** The most characters of a URL or path of a frame; longer ones are no frames. */
const MOST_URL = 4096;

const NUMBERS = /:([0-9]{1,10}):([0-9]{1,10})(?![0-9:])/g;
const SPACES = /[^\S\n]*/y;
// Behind a bracket too, as React prints it.
const AT = /(?<![^\s(])at /;
const BRACKET = /[()]/g;
const PLACE = /(?:[a-zA-Z][a-zA-Z0-9+.-]+:\/\/|\/|[a-zA-Z]:[\\/])/y;
const ADDRESS = 'address at ';
const ELSEWHERE = /^(?:[<[]|node:|internal\/|eval at )/;

/** Where a pattern that begins there ends. */
function passed(pattern, text, at) {
  pattern.lastIndex = at;
  return pattern.test(text) ? pattern.lastIndex : at;
}

/** Where a word stands last in a part of a text; -1 if it does not. */
function lastIn(text, word, low, end) {
  const at = text.slice(low, end).lastIndexOf(word);
  return at < 0 ? -1 : low + at;
}

/** Where the text of the innermost bracket begins that is open at the end of a text; -1 if none is. */
function openingIn(text) {
  const begin = text.lastIndexOf('(');
  if (begin < 0 || text.indexOf(')', begin) < 0) return begin < 0 ? -1 : begin + 1;
  const opened = [];
  for (const { 0: bracket, index } of text.matchAll(BRACKET)) {
    if (bracket === '(') opened.push(index + 1);
    else opened.pop();
  }
  return opened.length > 0 ? opened.at(-1) : -1;
}

const LETTER = /\p{L}/u;
const SLASH = /[./\\]/;
const BEHIND = /[\s,;]/;

/** Whether a name in a frame is that of a file: engines put others in brackets, and a number is that of a clock. */
const namesFile = (url) =>
  !ELSEWHERE.test(url) && !url.includes(' > ') && LETTER.test(url) && !url.includes('\0');

/** Whether a name behind other words is that of a file. */
const isPath = (url) => url.startsWith('/') || url[1] === ':' || url.includes('://') || (!url.includes(' ') && SLASH.test(url));

/** A line of a text, and where what is still to be read of it begins. */
class Line {
  constructor(text, start, end) {
    this.text = text;
    this.end = end;
    this.low = start;
    this.head = passed(SPACES, text, start);
    const found = text.slice(start, end).search(AT);
    this.firstAt = found < 0 ? end : start + found;
    this.isCall = text.startsWith('at ', this.head);
  }

  /** Whether nothing stands behind a place but white space, and the bracket that begins the properties of an error. */
  isLast(end) {
    let at = passed(SPACES, this.text, end);
    if (this.text[at] === '{') at = passed(SPACES, this.text, at + 1);
    return at >= this.end;
  }

  /** Where the file of `at f (FILE:1:2)` begins, and whether it is of bytecode, whose columns count from 0; -1 if there is none. */
  inBrackets(at) {
    const low = Math.max(this.low, at - MOST_URL);
    const opening = openingIn(this.text.slice(low, at));
    const start = low + opening;
    if (opening < 0 || this.firstAt > start) return [-1, false];
    if (this.text.startsWith(ADDRESS, start)) return [start + ADDRESS.length, true];
    return [this.text.startsWith('at ', start) ? start + 3 : start, false];
  }

  /** Where the file of `at FILE:1:2` begins. */
  behindAt(at) {
    let start;
    if (this.isCall && this.low <= this.head) {
      start = this.head + 3;
    } else if (this.firstAt < at) {
      const found = lastIn(this.text, ' at ', Math.max(this.low, at - MOST_URL), at);
      if (found < 0) return -1;
      start = found + 4;
    } else {
      return -1;
    }
    return this.text.startsWith('async ', start) ? start + 6 : start;
  }

  /** Where the file of a place at the end of a line begins, as `f@FILE:1:2`, a URL or a path alone, or behind the sign of Vitest. */
  atEnd(at) {
    const { text, low } = this;
    const word = Math.max(lastIn(text, ' ', low, at), lastIn(text, '\t', low, at), low - 1) + 1;
    if (lastIn(text, '❯ ', low, at) >= 0) return word;
    const front = text.slice(low, at);
    const sign = front.indexOf('@');
    if (sign >= 0 && !front.slice(0, sign).includes(':/')) return low + sign + 1;
    return passed(PLACE, text, word) > word ? word : -1;
  }

  /** The frame whose line and column are found; null if it is none. */
  frame(found) {
    const { text } = this;
    const at = found.index;
    const end = at + found[0].length;
    let [start, isBytecode, isFramed] = [-1, false, true];
    if (text[end] === ')') {
      [start, isBytecode] = this.inBrackets(at);
    } else if (end < text.length && !BEHIND.test(text[end])) {
      return null;
    } else {
      start = this.behindAt(at);
      isFramed = this.isCall && start >= 0 && this.low <= this.head;
      if (start < 0 && !this.isCall && this.isLast(end)) [start, isFramed] = [this.atEnd(at), true];
    }
    this.low = end;
    if (start < 0 || at <= start || at - start > MOST_URL) return null;
    const url = text.slice(start, at);
    if (!namesFile(url) || !(isFramed || isPath(url))) return null;
    return { url, line: Number(found[1]), column: Number(found[2]) + (isBytecode ? 1 : 0), start, end };
  }
}

/** The frames of a trace or a log, in order. */
function* framesIn(text) {
  let line = null;
  for (const found of text.matchAll(NUMBERS)) {
    if (line === null || found.index >= line.end) {
      const start = text.lastIndexOf('\n', found.index) + 1;
      const end = text.indexOf('\n', found.index);
      line = new Line(text, start, end < 0 ? text.length : end);
    }
    const frame = line.frame(found);
    if (frame !== null) yield frame;
  }
}

module.exports = { framesIn };
