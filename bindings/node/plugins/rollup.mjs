export { default } from './rollup.js';
