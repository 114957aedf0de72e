export { default } from './esbuild.js';
