import remapping from './remapping.js';

export default remapping;
