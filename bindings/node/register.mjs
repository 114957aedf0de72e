import hook from './register.js';

export const { install, uninstall } = hook;
