module.exports = require('junketscarp/sourcemap-codec');
