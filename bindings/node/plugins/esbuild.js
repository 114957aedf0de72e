'use strict';
// A plugin for esbuild, which follows the comments of modules by itself: here the maps beside them, too, or those that are given.

const { readFileSync, writeFileSync } = require('node:fs');
const { dirname, resolve } = require('node:path');

const { ledBack } = require('./leading.js');

/** The maps of a build: files that esbuild hands over, or that it has written. */
function mapsOf({ outputFiles, metafile }, folder) {
  const isMap = (path) => path.endsWith('.map');
  if (outputFiles) return outputFiles.filter(({ path }) => isMap(path)).map((it) => ({ path: it.path, text: it.text, write: (text) => (it.contents = Buffer.from(text)) }));
  const paths = Object.keys(metafile?.outputs ?? {}).filter(isMap).map((it) => resolve(folder, it));
  return paths.map((path) => ({ path, text: readFileSync(path, 'utf8'), write: (text) => writeFileSync(path, text) }));
}

function plugin(options = {}) {
  return {
    name: 'junketscarp',
    setup(build) {
      const { initialOptions } = build;
      initialOptions.metafile = true;
      build.onEnd((result) => {
        for (const { path, text, write } of mapsOf(result, initialOptions.absWorkingDir ?? process.cwd())) {
          const led = ledBack(text, dirname(path), options);
          if (led !== null) write(led.toString());
          led?.free();
        }
      });
    },
  };
}

module.exports = plugin;
module.exports.default = plugin;
