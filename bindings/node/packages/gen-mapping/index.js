module.exports = require('junketscarp/gen-mapping');
