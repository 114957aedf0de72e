import library from './source-map-support.js';

export const { install, resetRetrieveHandlers, wrapCallSite, getErrorSource, mapSourcePosition, retrieveSourceMap } = library;
export default library;
