import api from './sourcemap-codec.js';

export const {
  decode,
  encode,
} = api;
