module.exports = require('junketscarp/trace-mapping');
