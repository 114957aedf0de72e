module.exports = require('junketscarp/jridgewell-source-map');
