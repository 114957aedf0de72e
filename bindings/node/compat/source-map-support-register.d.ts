/** Installs source-map-support, with no options. */
export {};
