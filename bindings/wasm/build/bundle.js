#!/usr/bin/env node
// bundle.js MODULE.wasm FOLDER   makes the folder of the package that has the module: the module, what loads it in Node, and the package's
// own JavaScript as modules of ECMAScript for browsers and other hosts, which know no `require`:
//   node.js     the functions of native.d.ts, for lib/native.js: with the module in it, so that bundlers, which follow no paths, can take it in
//   loader      what it requires, with literal names
//   load.mjs    load(response, bytes or module) and loadSync, which give what the package exports
//   index.mjs   the package, which fetches the module beside it
//   inline.mjs  the package in one file, with the module in it
'use strict';

const { copyFileSync, mkdirSync, readFileSync, rmSync, writeFileSync } = require('node:fs');
const { basename, dirname, join, relative } = require('node:path');

const BINDINGS = join(__dirname, '../..');
const LIB = join(BINDINGS, 'node/lib');
const LIBRARY = join(LIB, 'index.js');
const NATIVE = join(LIB, 'native.js');
const LOADER = join(BINDINGS, 'wasm/loader/index.js');
const MODULE = 'oxc_sourcemap.wasm';
const MADE = '// Made of the files of the package.\n';

/** The text of a file, in which each that it requires has another name, and the paths of these. One that is no file of the package is
 *  refused. */
function linked(path, nameOf) {
  const paths = [];
  const text = readFileSync(path, 'utf8').replace(/\brequire\(([^)]*)\)/g, (_, word) => {
    const name = /^'(\.\.?\/[\w/.-]+\.js)'$/.exec(word)?.[1];
    if (name === undefined) throw new Error(`bundle: ${word} is no file of the package`);
    paths.push(join(dirname(path), name));
    return `require('${nameOf(paths.at(-1))}')`;
  });
  return { text, paths };
}

/** The texts of a file and of those below it, by the names that they have there; lib/native.js is given in another way. */
function filesBelow(path, nameOf, found = new Map()) {
  if (found.has(nameOf(path)) || path === NATIVE) return found;
  const { text, paths } = linked(path, nameOf);
  found.set(nameOf(path), text);
  for (const it of paths) filesBelow(it, nameOf, found);
  return found;
}

const nameIn = (path) => relative(BINDINGS, path);

/** The files as functions, and what runs them. */
function bundled() {
  const files = filesBelow(LOADER, nameIn, filesBelow(LIBRARY, nameIn));
  const entries = [...files].map(([name, text]) => `  ${JSON.stringify(name)}(module, exports, require) {\n${text}  },\n`);
  return `${MADE}
const FILES = {
${entries.join('')}};

function run(name, modules) {
  if (!modules.has(name)) {
    const module = { exports: {} };
    modules.set(name, module);
    FILES[name](module, module.exports, (it) => run(it, modules));
  }
  return modules.get(name).exports;
}

/** What the package exports, over a module of its own. */
function libraryOf(module) {
  const modules = new Map();
  modules.set('${nameIn(NATIVE)}', { exports: run('${nameIn(LOADER)}', modules).nativeOf(module) });
  return run('${nameIn(LIBRARY)}', modules);
}
`;
}

const LOADS = `
/** By streaming, if the server says that it is a module. */
async function compiled(response) {
  if (!response.ok) throw new Error(\`There is no WebAssembly module at \${response.url}: \${response.status}\`);
  const type = response.headers.get('content-type') ?? '';
  if (/^application\\/wasm\\b/i.test(type)) return WebAssembly.compileStreaming(response);
  return WebAssembly.compile(await response.arrayBuffer());
}

/** What the package exports, over a module: compiled already, its bytes, or the response that brings it. */
export async function load(given) {
  const it = await given;
  if (it instanceof WebAssembly.Module) return libraryOf(it);
  if (typeof Response === 'function' && it instanceof Response) return libraryOf(await compiled(it));
  return libraryOf(await WebAssembly.compile(it));
}

/** The same at once. Browsers allow it in workers alone. */
export function loadSync(given) {
  return libraryOf(given instanceof WebAssembly.Module ? given : new WebAssembly.Module(given));
}
`;

/** The names that the package exports, as index.mjs lists them. */
function exported() {
  const found = /export const (\{[^}]*\}) = library;/.exec(readFileSync(join(LIB, 'index.mjs'), 'utf8'));
  if (!found) throw new Error('bundle: index.mjs lists no exports');
  return `export const ${found[1]} = library;\n\nexport default library;\n`;
}

const BYTES = `const bytes = typeof Buffer === 'function' ? Buffer.from(MODULE, 'base64') : Uint8Array.from(atob(MODULE), (it) => it.charCodeAt(0));
`;

const node = (module) => `'use strict';
// What native.d.ts says, of the WebAssembly module in this file.

const { nativeOf } = require('./loader/index.js');

const MODULE = '${module.toString('base64')}';
${BYTES}
module.exports = nativeOf(new WebAssembly.Module(bytes));
`;

const INDEX = `${MADE}
import { load } from './load.mjs';

const library = await load(fetch(new URL('./${MODULE}', import.meta.url)));

`;

const inlined = (module) => `
const MODULE = '${module.toString('base64')}';
${BYTES}const library = libraryOf(await WebAssembly.compile(bytes));

`;

function main([path, folder]) {
  const module = readFileSync(path);
  rmSync(folder, { recursive: true, force: true });
  mkdirSync(folder, { recursive: true });
  copyFileSync(path, join(folder, MODULE));
  const loader = filesBelow(LOADER, (it) => `./${basename(it)}`);
  if (loader.size !== filesBelow(LOADER, nameIn).size) throw new Error('bundle: two files have one name');
  mkdirSync(join(folder, 'loader'));
  for (const [name, text] of loader) writeFileSync(join(folder, 'loader', name), text);
  const code = bundled();
  const files = { 'node.js': node(module), 'load.mjs': code + LOADS, 'index.mjs': INDEX + exported(), 'inline.mjs': code + inlined(module) + exported() };
  for (const [name, text] of Object.entries(files)) writeFileSync(join(folder, name), text);
}

main(process.argv.slice(2));
