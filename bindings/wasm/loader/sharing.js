'use strict';
// Threads share no maps here.

const { mapOf, word } = require('./arguments.js');
const { Code } = require('./layout.js');

function share(host, handle) {
  return host.told(mapOf(handle).isNull ? Code.NULL_HANDLE : Code.NO_THREADS);
}

function takeShared(host, number) {
  word(number);
  return host.told(Code.NO_ENTRY);
}

module.exports = { share, takeShared };
