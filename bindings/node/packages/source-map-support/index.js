module.exports = require('junketscarp/source-map-support');
