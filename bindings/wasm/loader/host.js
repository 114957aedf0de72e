'use strict';
// What all calls over one module share.

const { NoMemory } = require('./instance.js');
const { Instances } = require('./instances.js');
const { ANSWER, Code, SLOTS, Words } = require('./layout.js');
const { lending } = require('./lending.js');
const { MAP, Handle, Handles } = require('./handles.js');
const { sizeOf } = require('./moving.js');
const { Selection } = require('./selection.js');

/** Texts up to so many bytes are read into a shared instance. */
const SMALL_TEXT = 64 * 1024;
/** Of such a text comes a map that may take some times as much. */
const SMALL_MAP = 4 * SMALL_TEXT;

/** The instances of the module, the numbers that calls answer, and which map is selected. */
class Host {
  constructor(module) {
    this.fault = new Uint32Array(Words.FAULT);
    this.words = new Uint32Array(SLOTS);
    this.selection = new Selection(this.words);
    this.instances = new Instances(module, (instance, block) => this.handles.freeCollected(instance, block));
    this.handles = new Handles(this.instances, this.selection);
  }

  // ---- codes ----

  /** An error that has its code alone. */
  told(code) {
    if (code !== 0) this.fault.fill(0).fill(code, 0, 1);
    return code;
  }

  /** The code of a call that has filled in a fault. */
  coded(instance, code) {
    if (code !== 0) instance.copy(ANSWER.FAULT, this.fault, Words.FAULT);
    return code;
  }

  /** What a call answers, or the code where there is no memory for what it needs. */
  orNoMemory(run) {
    try {
      return run();
    } catch (error) {
      if (error instanceof NoMemory) return this.told(Code.OUT_OF_MEMORY);
      throw error;
    }
  }

  // ---- instances for calls ----

  /** The instance for a text of so many bytes. */
  forText(bytes) {
    return bytes <= SMALL_TEXT ? this.instances.shared() : this.instances.own(bytes);
  }

  /** The instance for what is made of maps: of small ones a shared one, that of the first of them if it has room. */
  forMaps(maps) {
    const bytes = maps.reduce((sum, map) => sum + sizeOf(map), 0);
    if (bytes > SMALL_MAP) return this.instances.own(bytes);
    const [first] = maps;
    return first !== undefined && this.instances.takes(first.instance) ? first.instance : this.instances.shared();
  }

  /** What `run` answers in an instance, where it leaves nothing. */
  within(instanceFor, run) {
    return this.orNoMemory(() => {
      const instance = instanceFor();
      const out = run(instance);
      if (!instance.isShared) this.instances.give(instance);
      return out;
    });
  }

  /** The same in a shared one. */
  withinShared(run) {
    return this.within(() => this.instances.shared(), run);
  }

  /** A map, or what else a call makes in an instance, or the code of the call, which may borrow things. */
  makes(instanceFor, run, kind = MAP) {
    return this.orNoMemory(() => {
      const instance = instanceFor();
      const code = lending(instance, (lend) => run(instance, lend));
      if (code === 0) return this.handles.hold(new Handle(kind), kind, instance, instance.answer(ANSWER.MADE));
      if (!instance.isShared) this.instances.give(instance);
      return code;
    });
  }
}

module.exports = { Host, SMALL_MAP };
