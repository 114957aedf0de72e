'use strict';
// Errors, from the words of a fault.

const native = require('./native.js');
const { NO_ID, Code, FIELDS, PLACES, SCOPES_FAULTS } = require('./constants.js');

class SourceMapError extends Error {
  constructor(message, { code, detail, field, reason, place, placeMessage }) {
    super(placeMessage ? `${message}, at ${placeMessage}` : message);
    this.code = code;
    this.detail = detail;
    this.field = field;
    this.reason = reason;
    this.place = place;
    this.placeMessage = placeMessage;
  }
}
Object.defineProperty(SourceMapError.prototype, 'name', { value: 'SourceMapError', configurable: true, writable: true });

/** A number of 64 bits, low word first. */
function long(words, at) {
  return words[at] + words[at + 1] * 2 ** 32;
}

/** The same, or null where it is not told. */
function longOrNull(words, at) {
  return words[at] === NO_ID && words[at + 1] === NO_ID ? null : long(words, at);
}

function placeOf(words) {
  const kind = PLACES[words[4]];
  if (!kind) return null;
  const isMember = kind === 'member' || kind === 'entry';
  return {
    kind,
    field: isMember ? FIELDS[words[5]] : null,
    text: longOrNull(words, 6),
    section: longOrNull(words, 8),
    line: isMember ? null : long(words, 10),
    segment: kind === 'segment' ? long(words, 12) : null,
    column: kind === 'reading' ? long(words, 12) : null,
    byte: isMember ? null : long(words, 14),
    entry: kind === 'entry' ? long(words, 16) : null,
  };
}

/** An error with no more than a code and a message. */
function errorOfMap(code, message) {
  return new SourceMapError(message, { code, detail: 0, field: null, reason: null, place: null, placeMessage: '' });
}

/** The place of a fault in words, and behind it what is really wrong there with the text that was read, if the message does not tell. */
function placeMessageOf(words, text) {
  const place = native.placeMessage(words);
  const reason = place && text !== undefined ? native.reasonMessage(text, words) : '';
  return reason ? `${place}: ${reason}` : place;
}

/** Whether what was read are the bytes of a compiled map, in whose eighth byte no text of a map has a NUL. */
function isCompiled(it) {
  return ArrayBuffer.isView(it) && [...'smap'].every((letter, at) => it[at] === letter.charCodeAt(0)) && it[7] === 0;
}

/** The error of a fault, if need be of reading this text. */
function errorOf(words, text) {
  const [number, field] = words;
  if (number === Code.NULL_HANDLE) return errorOfMap('SMAP_NULL_HANDLE', 'It was freed, or its buffer was transferred');
  if (isCompiled(text)) return errorOfMap(native.codeName(number), 'This is a compiled map: open it by CompiledMap');
  if (number === Code.SHARED) return errorOfMap('SMAP_SHARED', 'The map is shared with other threads, and takes no change');
  if (number === Code.NO_THREADS) return errorOfMap('SMAP_NO_THREADS', 'The WebAssembly module shares no map with other threads');
  const code = native.codeName(number);
  const message = number === Code.BAD_OPTION ? 'It is no number of Bias, Direction or Language' : native.message(words);
  return new SourceMapError(message || code, {
    code,
    detail: long(words, 2),
    field: number === Code.JSON_SHAPE ? FIELDS[field] : null,
    reason: number === Code.BAD_SCOPES ? SCOPES_FAULTS[field] : null,
    place: placeOf(words),
    placeMessage: placeMessageOf(words, text),
  });
}

/** The error of a code alone, of what is refused before the library is called. */
function refusal(code) {
  const words = new Uint32Array(native.fault.length);
  words[0] = code;
  return errorOf(words);
}

/** The error of a compiled map whose lists cannot be had. */
function damaged() {
  return errorOfMap('SMAP_NO_ENTRY', 'The compiled map is damaged');
}

/** Throws what a call has refused that answers a code, if need be of reading this text. */
function check(code, text) {
  if (code !== 0) throw errorOf(native.fault, text);
}

/** What a call answers that makes something, if need be of this text, or else a code. */
function made(answer, text) {
  if (typeof answer === 'number') throw errorOf(native.fault, text);
  return answer;
}

/** The same, or null where there is nothing. */
function madeOrNull(answer) {
  return answer === Code.NO_ENTRY ? null : made(answer);
}

module.exports = { SourceMapError, errorOf, errorOfMap, refusal, damaged, check, made, madeOrNull, long, longOrNull };
