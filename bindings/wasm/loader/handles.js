'use strict';
// What a map, a compiled map, scopes, a builder or a join is, where it is, and how it is freed.

const { NoMemory } = require('./instance.js');
const { Code } = require('./layout.js');
const { moved } = require('./moving.js');

const MAP = 'map';
const BUILDER = 'builder';
const JOIN = 'join';
const COMPILED = 'compiled';
const SCOPES = 'scopes';
const FREES = {
  map: 'smap_free_map',
  builder: 'smap_free_builder',
  join: 'smap_free_join',
  compiled: 'loader_free_compiled',
  scopes: 'smap_free_scopes',
};

/** An address in an instance. After `free` there is no instance. */
class Handle {
  #kind;

  constructor(kind) {
    this.#kind = kind;
    this.instance = null;
    this.at = 0;
    this.block = null; // what it has in a shared instance
    this.mends = null; // words of all mends, of a map that was read as it was found
    this.number = 0; // by which it is known once it was selected
    this.length = 0; // of a compiled map: how many bytes it has
    this.isFreed = false;
  }

  get isNull() {
    return this.at === 0;
  }

  static kindOf(it) {
    try {
      return it.#kind;
    } catch {
      return null;
    }
  }
}

/** Has handles hold what is made in instances, and let go of it. */
class Handles {
  #instances;
  #selection;

  constructor(instances, selection) {
    this.#instances = instances;
    this.#selection = selection;
  }

  /** Frees what a handle had in an instance. */
  freeIn(instance, kind, at) {
    if (instance.isShared) instance.held--;
    if (instance.trap === null) instance.call(FREES[kind], at);
    this.#instances.give(instance);
  }

  /** Frees what a handle that was collected has in a shared instance. One that let go of it left no address. Nobody waits for a trap
   *  here: calls of the maps that are left throw it. */
  freeCollected(instance, { kind, at }) {
    if (at === 0) return;
    this.#selection.drop(instance, at);
    try {
      this.freeIn(instance, kind, at);
    } catch (error) {
      if (error !== instance.trap) throw error;
    }
  }

  /** Has a handle hold what is made at an address. */
  hold(handle, kind, instance, at) {
    handle.instance = instance;
    handle.at = at;
    if (!instance.isShared) return handle;
    instance.held++;
    handle.block = { kind, at };
    instance.collected.register(handle, handle.block);
    return handle;
  }

  /** The same of nothing any more. */
  letGo(handle) {
    this.#selection.drop(handle.instance, handle.at);
    if (handle.block !== null) handle.block.at = 0;
    handle.instance = handle.block = handle.mends = null;
    handle.at = handle.number = 0;
  }

  /** Frees what a handle holds. */
  empty(handle, kind) {
    const { instance, at } = handle;
    this.letGo(handle);
    if (instance !== null) this.freeIn(instance, kind, at);
  }

  /** Moves a map to another instance, with its index by original positions if it has one. */
  move(map, to) {
    const { instance, at, mends } = map;
    const index = instance.wordsAt;
    const isIndexed = instance.call('smap_generated', at, 0, 0, 0, 0, index, index + 4) !== Code.NO_INDEX;
    const copy = moved(map, to);
    if (isIndexed && to.call('smap_index_sources', copy, to.faultAt) !== 0) {
      to.call('smap_free_map', copy);
      throw new NoMemory();
    }
    this.letGo(map);
    this.hold(map, MAP, to, copy).mends = mends;
    this.freeIn(instance, MAP, at);
    return map;
  }
}

module.exports = { MAP, BUILDER, JOIN, COMPILED, SCOPES, FREES, Handle, Handles };
