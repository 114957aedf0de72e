'use strict';

require('./source-map-support.js').install();
