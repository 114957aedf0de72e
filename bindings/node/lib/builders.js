'use strict';
// Maps that are made call by call.

const native = require('./native.js');
const { check, made } = require('./errors.js');
const { text, word, idWord, tokens } = require('./arguments.js');
const { mapOf, handleOf } = require('./map.js');

class SourceMapBuilder {
  #handle = made(native.builderNew());

  addName(name) {
    check(native.builderAddName(this.#handle, text(name, 'The name')));
    return native.words[0];
  }

  addSource(path, content = null) {
    check(
      native.builderAddSource(
        this.#handle,
        text(path, 'The path'),
        content === null ? null : text(content, 'The content'),
      ),
    );
    return native.words[0];
  }

  addToken(generatedLine, generatedColumn, originalLine, originalColumn, sourceId = null, nameId = null) {
    one[0] = word(generatedLine, 'generatedLine');
    one[1] = word(generatedColumn, 'generatedColumn');
    one[2] = word(originalLine, 'originalLine');
    one[3] = word(originalColumn, 'originalColumn');
    one[4] = idWord(sourceId, 'sourceId');
    one[5] = idWord(nameId, 'nameId');
    check(native.builderAddTokens(this.#handle, one));
  }

  addTokens(all) {
    check(native.builderAddTokens(this.#handle, tokens(all)));
  }

  setFile(file) {
    check(native.builderSetFile(this.#handle, text(file, 'The file')));
  }

  finish() {
    return mapOf(native.builderFinish(this.#handle));
  }

  free() {
    native.free(this.#handle);
  }
}

/** The words of the token that is added. */
const one = new Uint32Array(6);

class ConcatSourceMapBuilder {
  #handle = made(native.joinNew());

  addSourceMap(map, line, column = 0) {
    check(native.joinAdd(this.#handle, handleOf(map), word(line, 'The line'), word(column, 'The column')));
  }

  finish() {
    return mapOf(native.joinFinish(this.#handle));
  }

  free() {
    native.free(this.#handle);
  }
}

for (const it of [SourceMapBuilder, ConcatSourceMapBuilder]) {
  Object.defineProperty(it.prototype, Symbol.dispose ?? Symbol.for('nodejs.dispose'), {
    value: it.prototype.free,
    configurable: true,
    writable: true,
  });
}

module.exports = { SourceMapBuilder, ConcatSourceMapBuilder };
