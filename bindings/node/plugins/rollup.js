'use strict';
// A plugin for Rollup, and so for Vite: it traces the maps of chunks through the maps of their modules.

const { dirname, resolve } = require('node:path');

const { ledBack } = require('./leading.js');

const COMMENT = /\/\/# sourceMappingURL=data:application\/json;charset=utf-8;base64,.*/;

/** Gives a chunk another map: the object, the file of it where it is one of the bundle, and the comment in the code that has it. */
function replaceMap(chunk, bundle, map) {
  for (const key of ['sources', 'sourcesContent', 'names', 'mappings']) chunk.map[key] = map[key];
  delete chunk.map.x_google_ignoreList;
  if (map.ignoreList) chunk.map.x_google_ignoreList = map.ignoreList;
  const file = bundle[chunk.sourcemapFileName ?? `${chunk.fileName}.map`];
  if (file?.type === 'asset') file.source = chunk.map.toString();
  chunk.code = chunk.code.replace(COMMENT, () => `//# sourceMappingURL=${chunk.map.toUrl()}`);
}

function plugin(options = {}) {
  return {
    name: 'junketscarp',
    generateBundle(output, bundle) {
      const folder = output.dir ?? dirname(output.file ?? '.');
      for (const chunk of Object.values(bundle).filter((it) => it.type === 'chunk' && it.map)) {
        const led = ledBack(chunk.map.toString(), dirname(resolve(folder, chunk.fileName)), options);
        if (led === null) continue;
        replaceMap(chunk, bundle, led.toJSON());
        led.free();
      }
    },
  };
}

module.exports = plugin;
module.exports.default = plugin;
