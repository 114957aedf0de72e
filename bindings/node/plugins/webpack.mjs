export { default } from './webpack.js';
