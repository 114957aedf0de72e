'use strict';
// A module that runs: its memory, and texts and words in it.

const { ANSWER } = require('./layout.js');

/** Up to this length, a text of ASCII is read faster letter by letter. */
const SHORT = 24;

const encoder = new TextEncoder();
// A text may begin with U+FEFF.
const decoder = new TextDecoder('utf-8', { ignoreBOM: true, fatal: true });
const anyDecoder = new TextDecoder('utf-8', { ignoreBOM: true });

/** The module stopped in the middle of a call. What lies in the memory of its instance is lost. */
class TrapError extends Error {
  constructor(call, cause, isShared) {
    const lost = isShared ? 'The maps that share its memory are lost' : 'The map of this call is lost, and no other';
    super(`The WebAssembly module stopped in ${call}: ${cause.message}. ${lost}`, { cause });
  }
}
Object.defineProperty(TrapError.prototype, 'name', { value: 'TrapError', configurable: true, writable: true });

/** There is no room in the memory of an instance, or for another instance: the code NO_MEMORY. */
class NoMemory extends Error {}

/** The numbers by which the module knows its functions, by their names. */
function numbersOf(module) {
  const [names] = WebAssembly.Module.customSections(module, 'calls');
  if (names === undefined) throw new TypeError('This WebAssembly module is not the library');
  return Object.fromEntries(decoder.decode(names).split('\n').map((name, i) => [name, i]));
}

/** A module that runs: its exports and its memory. */
class Instance {
  constructor(module, numbers) {
    this.exports = new WebAssembly.Instance(module, {}).exports;
    this.memory = this.exports.memory;
    this.numbers = numbers;
    this.trap = null;
    this.collected = null; // of a shared one: where its handles are registered, with what they have in it
    this.held = 0; // of a shared one: by so many handles
    this.words = new Uint32Array(this.memory.buffer);
    this.bytes = new Uint8Array(this.memory.buffer);
    this.answers = this.call('loader_answers');
  }

  /** Calls a function of the module. After a trap the memory may be anything, so nothing is called any more. */
  call(name, ...words) {
    if (this.trap !== null) throw this.trap;
    try {
      return this.exports.call(this.numbers[name], ...words) >>> 0;
    } catch (cause) {
      this.trap = new TrapError(name, cause, this.isShared);
      throw this.trap;
    }
  }

  get isShared() {
    return this.collected !== null;
  }

  get size() {
    return this.memory.buffer.byteLength;
  }

  /** Whether no more than so many bytes of the memory are in use. */
  hasUsed(bytes) {
    return this.size <= bytes || this.call('loader_used') <= bytes;
  }

  u32() {
    if (this.words.length === 0) this.words = new Uint32Array(this.memory.buffer);
    return this.words;
  }

  u8() {
    if (this.bytes.length === 0) this.bytes = new Uint8Array(this.memory.buffer);
    return this.bytes;
  }

  // ---- where calls put what they answer ----

  get faultAt() {
    return this.answers + ANSWER.FAULT;
  }

  get wordsAt() {
    return this.answers + ANSWER.WORDS;
  }

  get madeAt() {
    return this.answers + ANSWER.MADE;
  }

  get countAt() {
    return this.answers + ANSWER.COUNT;
  }

  get textAt() {
    return this.answers + ANSWER.TEXT;
  }

  /** The word of the answers at this many bytes. */
  answer(at) {
    return this.u32()[(this.answers + at) >>> 2];
  }

  /** Copies so many words of the answers from there on. */
  copy(at, out, count) {
    const from = this.u32();
    const begin = (this.answers + at) >>> 2;
    for (let i = 0; i < count; i++) out[i] = from[begin + i];
  }

  /** The text that a call has returned, which is borrowed. */
  lentText(by = decoder) {
    return this.text(this.answer(ANSWER.TEXT), this.answer(ANSWER.TEXT + 8), by);
  }

  /** The same, which has U+FFFD where it is no UTF-8. */
  anyLentText() {
    return this.lentText(anyDecoder);
  }

  // ---- texts and words in the memory ----

  /** Room for so many bytes; throws NoMemory. */
  room(bytes) {
    const at = this.call('malloc', bytes);
    if (at === 0) throw new NoMemory();
    return at;
  }

  putBytes(bytes) {
    const at = this.room(bytes.length);
    this.u8().set(bytes, at);
    return { at, len: bytes.length };
  }

  putWords(words) {
    const at = this.room(4 * words.length);
    this.u32().set(words, at >>> 2);
    return at;
  }

  /** The bytes of a text. A string of ASCII has as many as units, and is encoded where it comes to lie. */
  putText(text) {
    if (typeof text !== 'string') return this.putBytes(text);
    const at = this.room(text.length);
    const { read, written } = encoder.encodeInto(text, this.u8().subarray(at, at + text.length));
    if (read === text.length) return { at, len: written };
    this.call('free', at);
    return this.putBytes(encoder.encode(text));
  }

  /** The text of so many bytes. */
  text(at, len, by = decoder) {
    const bytes = this.u8();
    if (len > SHORT) return by.decode(bytes.subarray(at, at + len));
    let out = '';
    for (let i = at; i < at + len; i++) {
      if (bytes[i] > 127) return by.decode(bytes.subarray(at, at + len));
      out += String.fromCharCode(bytes[i]);
    }
    return out;
  }
}

module.exports = { TrapError, NoMemory, Instance, numbersOf };
