#!/usr/bin/env node
// run_c_test.js MODULE   runs bindings/c/tests, which was linked with the library into this module, and prints what it says.
'use strict';

const { readFileSync } = require('node:fs');

const module_ = new WebAssembly.Module(readFileSync(process.argv[2]));
const names = Buffer.from(WebAssembly.Module.customSections(module_, 'calls')[0]).toString().split('\n');
const { call, memory } = new WebAssembly.Instance(module_, {}).exports;
const run = (name) => call(names.indexOf(name)) >>> 0;
process.exitCode = run('test_main');
process.stdout.write(Buffer.from(memory.buffer, run('said_at'), run('said_length')));
