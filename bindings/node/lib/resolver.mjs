import resolver from './resolver.js';

export const { BESIDE, Folder, Lines, Reason, Resolved, Resolver, TooLargeError, framesIn, replaceFrames } = resolver;
