'use strict';
// The numbers of the header, and those of native.d.ts.

const header = require('./header.js');

const { NO_ID, Bias, Direction, Language, Kind, Words } = header;

/** Beside those of the library two of native.d.ts. */
const Code = Object.freeze({ ...header.Code, SHARED: 200, NO_THREADS: 201 });

const { NAME, SOURCE, SOURCE_CONTENT: CONTENT, FILE, SOURCE_ROOT, DEBUG_ID } = header.Text;
const Which = Object.freeze({ NAME, SOURCE, CONTENT, FILE, SOURCE_ROOT, DEBUG_ID });
const Form = Object.freeze({ JSON: 0, DATA_URL: 1, MAPPINGS: 2, DRAWING: 3, DRAWING_URL: 4 });

/** So many words are there for what calls answer, and in these places those of `select` and `trace`. */
const SLOTS = 16;
const Slot = Object.freeze({ SELECTED: 12, LINE: 13, COLUMN: 14, BIAS: 15 });

/** The names of constants by their numbers; null for a number without one. */
function byNumber(them, nameOf = (key) => key) {
  const names = new Array(Math.max(...Object.values(them)) + 1).fill(null);
  for (const [key, number] of Object.entries(them)) names[number] = nameOf(key);
  return Object.freeze(names);
}

const camel = (key) => key.toLowerCase().replace(/_./g, (it) => it[1].toUpperCase());

// Of the map itself, and of the one member that is not named so.
const OTHER_FIELDS = { OBJECT: 'value', GOOGLE_IGNORE_LIST: 'x_google_ignoreList' };
const FIELDS = byNumber(header.Field, (key) => OTHER_FIELDS[key] ?? camel(key));
const PLACES = byNumber(header.Place, (key) => (key === 'NONE' ? null : camel(key)));
const MENDS = byNumber(header.Mend);
const SCOPES_FAULTS = byNumber(header.ScopesFault);

module.exports = { NO_ID, Bias, Direction, Language, Kind, Code, Words, Which, Form, SLOTS, Slot, FIELDS, PLACES, MENDS, SCOPES_FAULTS };
