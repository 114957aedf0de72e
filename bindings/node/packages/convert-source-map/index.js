module.exports = require('junketscarp/convert-source-map');
