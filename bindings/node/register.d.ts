/**
 * `node -r junketscarp/register app.js` gives stack traces in original positions, as `node --enable-source-maps app.js` does. The module
 * installs its hook when it is loaded.
 *
 * The map of a file is the one that its last sourceMappingURL comment names, in a file or a data URL, or else the one beside it, at its
 * path with `.map` behind. It is read when a stack trace first needs it, and kept for the next ones. Positions in a file without a map, or
 * with an unreadable one, stay unchanged.
 *
 * @example
 * require("junketscarp/register").uninstall();
 */

/**
 * Makes stack traces report original positions, by Error.prepareStackTrace. A function that is set already is called with frames that
 * return original positions. One that is set later replaces this one, and may call it.
 */
export function install(): void;

/** Ends that, restores the previous function, unless another one replaced this one, and drops all maps. */
export function uninstall(): void;
