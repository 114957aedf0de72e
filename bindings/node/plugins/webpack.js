'use strict';
// A plugin for webpack 5: it traces the maps that `devtool: "source-map"` makes through the maps of their modules.

const { dirname, resolve } = require('node:path');

const { ledBack } = require('./leading.js');

const NAME = 'junketscarp';

class JunketscarpPlugin {
  constructor(options = {}) {
    this.options = options;
  }

  apply(compiler) {
    const { Compilation, sources } = compiler.webpack;
    // (`webpack://NAME/./src/a.js`, with a query behind where there are several of one name)
    const fileOf = (source) => {
      const path = /^webpack:\/\/[^/]*\/(\.{0,2}\/?[^?]*)/.exec(source)?.[1];
      return path === undefined || path.startsWith('webpack/') ? null : resolve(compiler.context, path);
    };
    const lead = (assets, compilation) => {
      for (const name of Object.keys(assets).filter((it) => it.endsWith('.map'))) {
        const folder = dirname(resolve(compiler.outputPath, name));
        const led = ledBack(assets[name].source().toString(), folder, { fileOf, ...this.options });
        if (led !== null) compilation.updateAsset(name, new sources.RawSource(led.toString()));
        led?.free();
      }
    };
    compiler.hooks.compilation.tap(NAME, (compilation) => {
      const stage = Compilation.PROCESS_ASSETS_STAGE_DEV_TOOLING + 1;
      compilation.hooks.processAssets.tap({ name: NAME, stage, additionalAssets: true }, (assets) => lead(assets, compilation));
    });
  }
}

module.exports = JunketscarpPlugin;
module.exports.default = JunketscarpPlugin;
