'use strict';
// The package source-map-js 1, which has the API of source-map 0.6.

module.exports = require('./source-map.js');
