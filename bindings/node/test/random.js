'use strict';

/** Numbers from 0 up to a limit, by a seed. */
function random(seed) {
  let x = (seed * 2654435761 + 1) >>> 0 || 1;
  return (limit) => {
    x ^= x << 13;
    x ^= x >>> 17;
    x ^= x << 5;
    return (x >>> 0) % limit;
  };
}

module.exports = { random };
