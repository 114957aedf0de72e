'use strict';
// Messages of faults and mends.

const { textOf, word, wordsOf } = require('./arguments.js');
const { Words } = require('./layout.js');
const { lending } = require('./lending.js');

/** A reason takes no more bytes. */
const REASON = 256;

const stringOr = (said) => (typeof said === 'number' ? '' : said);

/** The message that a call writes of a struct, by its words. */
const says = (name, size) => (host, given) => {
  const struct = wordsOf(given).slice();
  if (struct.length !== size) throw new TypeError('It is no fault and no mend');
  const said = host.withinShared((it) =>
    lending(it, (lend) => {
      const at = lend.words(struct);
      const length = it.call(name, at, 0, 0);
      const room = lend.room(length);
      return it.text(room, Math.min(length, it.call(name, at, room, length)));
    }),
  );
  return stringOr(said);
};

/** What is really wrong with a text at the place of its fault: a short text, which may be empty. */
function reasonMessage(host, text, fault) {
  const given = textOf(text);
  const struct = wordsOf(fault).slice();
  if (struct.length !== Words.FAULT) throw new TypeError('It is no fault');
  const said = host.within(() => host.forText(given.length), (it) =>
    lending(it, (lend) => {
      const room = lend.room(REASON);
      const length = it.call('smap_reason_message', ...lend.text(given), lend.words(struct), room, REASON);
      return it.text(room, Math.min(length, REASON));
    }),
  );
  return stringOr(said);
}

function codeName(host, code) {
  const which = word(code);
  return host.withinShared((it) => {
    const at = it.call('smap_code_name', which);
    return it.text(at, it.u8().indexOf(0, at) - at);
  });
}

module.exports = {
  message: says('smap_message', Words.FAULT),
  placeMessage: says('smap_place_message', Words.FAULT),
  mendMessage: says('smap_mend_message', Words.MEND),
  reasonMessage,
  codeName,
};
