'use strict';
// node -r junketscarp/register app.js: stack traces in original positions, as node --enable-source-maps app.js gives them.

const { install, uninstall } = require('./compat/stack-traces.js');

install();

module.exports = { install, uninstall };
