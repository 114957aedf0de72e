module.exports = require('junketscarp/remapping');
