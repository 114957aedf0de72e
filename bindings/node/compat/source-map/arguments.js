'use strict';
// Arguments that are objects.

/** A property that has to be there. */
function required(args, name) {
  if (name in args) return args[name];
  throw new Error(`"${name}" is a required argument.`);
}

/** A property, or what stands for it. One that is there and undefined is undefined. */
function optional(args, name, fallback) {
  return name in args ? args[name] : fallback;
}

/** Refuses a position before the first one. */
function checkPosition(line, column) {
  if (line <= 0) throw new TypeError(`Line must be greater than or equal to 1, got ${line}`);
  if (column < 0) throw new TypeError(`Column must be greater than or equal to 0, got ${column}`);
}

module.exports = { required, optional, checkPosition };
