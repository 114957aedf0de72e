module.exports = require('junketscarp/source-map-async');
