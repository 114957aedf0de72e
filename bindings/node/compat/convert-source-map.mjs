import library from './convert-source-map.js';

export const { fromObject, fromJSON, fromURI, fromBase64, fromComment, fromMapFileComment, fromSource, fromMapFileSource } = library;
export const { removeComments, removeMapFileComments, generateMapFileComment, commentRegex, mapFileCommentRegex } = library;
export default library;
