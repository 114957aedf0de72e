'use strict';
// Numbers of the header and of native.d.ts, and where the memory has what calls answer.

const { NO_ID, Code, Form, SLOTS, Slot, Which, Words } = require('../../node/lib/constants.js');

/** Where the bytes are in the counts of a map, in bytes. */
const BYTES = 48;

/** The answers of a call in the memory, in bytes from where they begin (calls.c). */
const ANSWER = { FAULT: 0, WORDS: 72, MADE: 136, OTHER: 144, TEXT: 152, COUNT: 168 };

/** The words of an answer of a lookup: its kind, the index of a token, and the token. */
const FOUND = 2 + Words.TOKEN;

/** The words of the counts of a compiled map, and of those of scopes. */
const COUNTS = 12;
const SCOPES_COUNTS = 6;

module.exports = { COUNTS, SCOPES_COUNTS, NOT_TOLD: NO_ID, Code, Form, SLOTS, Slot, Which, Words, BYTES, ANSWER, FOUND };
