'use strict';
// The module of PACKAGE in the environment, in a host that gives three instances and no more.

const { join } = require('node:path');

const Instance = WebAssembly.Instance;
let given = 0;
WebAssembly.Instance = class extends Instance {
  constructor(...words) {
    if (++given > 3) throw new RangeError('WebAssembly.Instance(): Out of memory: Cannot allocate Wasm memory for new instance');
    super(...words);
  }
};

module.exports = require(join(process.env.PACKAGE, 'node.js'));
