'use strict';
// A table of what is read once and held for a time, within bounds.

/** Why there is nothing to hold. It is held itself if `holds` is true. */
class Missing extends Error {
  constructor(reason, detail = '', holds = true) {
    super(detail);
    Object.assign(this, { reason, detail, holds });
  }
}

/** That a trace takes no longer. */
class TimeOver extends Error {}

/** A store that is none for the call: this is thrown on to who calls. */
class MisuseError extends TypeError {}

/** What generators return, by their keys, and Missing that they throw. What was not asked for longest goes first. */
class Table {
  #bounds; // size, entries, missing, seconds, and for how many seconds one is loaded (patience)
  #clock;
  #held = new Map();
  #missing = new Map();
  #loading = new Map();
  #size = 0;
  #counts = { hits: 0, misses: 0, waits: 0, missingHits: 0, expired: 0, evictions: 0 };

  constructor(bounds, clock) {
    this.#bounds = bounds;
    this.#clock = clock;
  }

  /** The value of a key, by a generator that yields what a store answers. */
  get(key, load) {
    const found = this.#found(key);
    if (found !== undefined) return found;
    this.#counts.misses++;
    return this.#kept(key, () => runNow(load()));
  }

  /** The same where a store may answer by a promise. What is loaded already is waited for; and nothing for longer than this. */
  async getAsync(key, load, seconds) {
    const found = this.#found(key);
    if (found !== undefined) return found;
    let loading = this.#loading.get(key);
    // (one that took longer than a trace may never answer)
    const isNew = loading === undefined || this.#clock() > loading.until;
    this.#counts[isNew ? 'misses' : 'waits']++;
    if (isNew) {
      loading = { until: this.#clock() + this.#bounds.patience, promise: null };
      this.#loading.set(key, loading);
      loading.promise = this.#load(key, load, loading);
    }
    return within(loading.promise, seconds);
  }

  async #load(key, load, own) {
    try {
      const value = await runAsync(load());
      return this.#kept(key, () => value);
    } catch (error) {
      return this.#kept(key, () => {
        throw error;
      });
    } finally {
      if (this.#loading.get(key) === own) this.#loading.delete(key);
    }
  }

  /** What is held for a key, put behind all others. */
  #found(key) {
    for (const [them, count] of [[this.#held, 'hits'], [this.#missing, 'missingHits']]) { // prettier-ignore
      const entry = them.get(key);
      if (entry === undefined) continue;
      them.delete(key);
      if (this.#clock() < entry.until) {
        them.set(key, entry);
        this.#counts[count]++;
        if (entry.value instanceof Missing) throw entry.value;
        return entry.value;
      }
      if (them === this.#held) this.#size -= entry.value.size;
      this.#counts.expired++;
    }
    return undefined;
  }

  #kept(key, load) {
    const until = () => this.#clock() + this.#bounds.seconds;
    try {
      const value = load();
      this.#put(key, value, until());
      return value;
    } catch (error) {
      if (error instanceof Missing && error.holds) {
        this.#missing.delete(key);
        this.#missing.set(key, { value: error, until: until() });
        if (this.#missing.size > this.#bounds.missing) this.#missing.delete(this.#missing.keys().next().value);
      }
      throw error;
    }
  }

  #drop(key) {
    this.#size -= this.#held.get(key)?.value.size ?? 0;
    this.#held.delete(key);
  }

  #put(key, value, until) {
    // (a call that did not wait may have put it there)
    this.#drop(key);
    if (value.size > this.#bounds.size) {
      this.#counts.evictions++;
      return;
    }
    this.#held.set(key, { value, until });
    this.#size += value.size;
    while (this.#size > this.#bounds.size || this.#held.size > this.#bounds.entries) {
      this.#drop(this.#held.keys().next().value);
      this.#counts.evictions++;
    }
  }

  clear() {
    this.#held.clear();
    this.#missing.clear();
    this.#size = 0;
  }

  counts() {
    return { ...this.#counts, bytesHeld: this.#size, held: this.#held.size, missingHeld: this.#missing.size };
  }
}

/** Runs a generator whose answers are there. */
function runNow(steps) {
  let step = steps.next();
  while (!step.done) {
    if (typeof step.value?.then === 'function') {
      step.value.then(null, () => {});
      throw new MisuseError('the store answers by a Promise: use the calls whose names end in Async');
    }
    step = steps.next(step.value);
  }
  return step.value;
}

/** Runs a generator whose answers may be promises. */
async function runAsync(steps) {
  let step = steps.next();
  while (!step.done) {
    let answer;
    try {
      answer = await step.value;
    } catch (error) {
      step = steps.throw(error);
      continue;
    }
    step = steps.next(answer);
  }
  return step.value;
}

/** What a promise comes to within so many seconds; else TimeOver is thrown. */
async function within(promise, seconds) {
  let timer;
  const over = new Promise((_, refuse) => {
    timer = setTimeout(() => refuse(new TimeOver()), Math.max(0, Math.min(1000 * seconds, 2 ** 31 - 1)));
  });
  try {
    return await Promise.race([promise, over]);
  } finally {
    clearTimeout(timer);
  }
}

module.exports = { Missing, MisuseError, Table, TimeOver };
