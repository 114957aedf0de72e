'use strict';
// Which instance of the module a map, a builder or a join goes to. The head of index.js has the rules.

const { Instance, NoMemory, numbersOf } = require('./instance.js');

/** A shared instance takes no more maps once so much of its memory is in use, until less than half of it is. */
const MOST_SHARED = 16 * 1024 * 1024;
/** Freed instances up to this many bytes, and this many of them, are kept for the next maps. */
const SMALL = 40 * 65536;
const MOST_SPARE = 8;
/** One that is larger is used again for a map whose text is not so many times smaller. */
const MOST_TIMES = 16;
/** After the host gave no instance, which takes it a while, it is not asked for so many maps. */
const PATIENCE = 250;

/** Makes instances, and keeps some: that which small maps go to, others that have room for them, and free ones. */
class Instances {
  #module;
  #numbers;
  #whenCollected;
  #current; // where small maps go to
  #roomy = new Set(); // shared ones that were full, and have room again
  #idle = null; // the current one, as long as it is empty and large: the collector may take it
  #spare = [];
  #large = null; // a freed one with a large memory, which the collector may take
  #waits = 0; // so many times no instance is asked for

  /** Of a module. `whenCollected` is called with an instance and what a handle had in it that was collected. */
  constructor(module, whenCollected) {
    this.#module = module;
    this.#numbers = numbersOf(module);
    this.#whenCollected = whenCollected;
    this.#current = this.#makeShared();
    if (this.#current === null) throw new RangeError('There is no memory for a WebAssembly module');
  }

  /** The instance for something small, which others share. */
  shared() {
    this.#current ??= this.#idle?.deref() ?? null;
    if (!this.takes(this.#current)) this.#current = this.#nextShared();
    return this.#current;
  }

  /** Whether there is room for a small map in an instance. */
  takes(instance) {
    return instance !== null && instance.isShared && instance.trap === null && instance.hasUsed(MOST_SHARED);
  }

  /** One that has room again, or a new one; where there is none, one that is full, as long as it runs. */
  #nextShared() {
    for (const it of this.#roomy) {
      this.#roomy.delete(it);
      if (it.trap === null) return it;
    }
    const runs = this.#current !== null && this.#current.trap === null;
    if (!runs) this.#waits = 0;
    const made = this.#makeShared() ?? (runs ? this.#current : null);
    if (made === null) throw new NoMemory();
    return made;
  }

  /** The instance for one handle alone, which begins with so many bytes; where the host gives none, a shared one. */
  own(bytes = 0) {
    return this.#takeLarge(bytes) ?? this.#spare.pop() ?? this.#make() ?? this.shared();
  }

  #takeLarge(bytes) {
    const large = this.#large?.deref();
    if (large === undefined || large.size > MOST_TIMES * bytes) return undefined;
    this.#large = null;
    return large;
  }

  /** A new instance; null where the host gives none, and for a while then. */
  #make() {
    if (this.#waits > 0) {
      this.#waits--;
      return null;
    }
    try {
      return new Instance(this.#module, this.#numbers);
    } catch (error) {
      if (!(error instanceof RangeError)) throw error;
      this.#waits = PATIENCE;
      return null;
    }
  }

  /** The same, for many handles. What is registered for them goes with it. */
  #makeShared() {
    const made = this.#make();
    if (made !== null) made.collected = new FinalizationRegistry((block) => this.#whenCollected(made, block));
    return made;
  }

  /** Takes back an instance that was taken for one handle, and in which nothing is left; of a shared one, what one handle had. */
  give(instance) {
    if (instance.trap !== null) this.#roomy.delete(instance);
    else if (instance.isShared) this.#left(instance);
    else if (instance.size > SMALL) {
      if (this.#large?.deref() === undefined) this.#large = new WeakRef(instance);
    } else if (this.#spare.length < MOST_SPARE) {
      this.#spare.push(instance);
    }
  }

  /** A shared instance may be empty now, or have room again. */
  #left(instance) {
    const isCurrent = instance === this.#current;
    if (instance.held === 0) {
      this.#roomy.delete(instance);
      if (!isCurrent || instance.size <= SMALL) return;
      this.#idle = new WeakRef(instance);
      this.#current = null;
    } else if (!isCurrent && instance.hasUsed(MOST_SHARED / 2)) {
      this.#roomy.add(instance);
    }
  }
}

module.exports = { Instances };
