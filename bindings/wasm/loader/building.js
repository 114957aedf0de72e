'use strict';
// Maps that are built or joined call by call.

const { handleOf, mapOf, textOf, word, wordsOf } = require('./arguments.js');
const { BUILDER, FREES, Handle, JOIN, MAP } = require('./handles.js');
const { SMALL_MAP } = require('./host.js');
const { NoMemory } = require('./instance.js');
const { ANSWER, Code, Words } = require('./layout.js');
const { lending } = require('./lending.js');
const { gathering, sizeOf } = require('./moving.js');

const MAKES = { builder: 'smap_builder_new', join: 'smap_join_new' };

/** Gives a handle a builder or a join in an instance of its own. */
function beginsAnew(host, handle, kind) {
  const instance = host.instances.own();
  const code = instance.call(MAKES[kind], instance.madeAt, instance.faultAt);
  if (code !== 0) return host.coded(instance, code);
  host.handles.hold(handle, kind, instance, instance.answer(ANSWER.MADE));
  return 0;
}

/** A new builder or join, or the code why not. */
function begins(host, kind) {
  return host.orNoMemory(() => {
    const handle = new Handle(kind);
    const code = beginsAnew(host, handle, kind);
    return code !== 0 ? code : handle;
  });
}

/** A call with a builder or a join. After it was finished it has no instance until it is used again. */
function adds(host, handle, kind, run) {
  const it = handleOf(handle, kind);
  if (it.isFreed) return host.told(Code.NULL_HANDLE);
  return host.orNoMemory(() => {
    const code = it.instance === null ? beginsAnew(host, it, kind) : 0;
    if (code !== 0) return code;
    const { instance, at } = it;
    return lending(instance, (lend) => host.coded(instance, run(instance, at, lend, instance.faultAt)));
  });
}

/** A map that is small, in a shared instance if there is room. */
function settled(host, map) {
  if (map.instance.isShared || sizeOf(map) > SMALL_MAP) return map;
  try {
    return host.handles.move(map, host.instances.shared());
  } catch (error) {
    if (error instanceof NoMemory) return map;
    throw error;
  }
}

/** The map that was made takes the instance over; one that is small goes to a shared one. */
function finishes(host, handle, kind, name) {
  const code = adds(host, handle, kind, (it, at, _, to) => it.call(name, at, it.madeAt, to));
  if (code !== 0) return code;
  const { instance, at } = handle;
  const map = host.handles.hold(new Handle(MAP), MAP, instance, instance.answer(ANSWER.MADE));
  host.handles.letGo(handle);
  if (instance.isShared) instance.held--;
  instance.call(FREES[kind], at);
  return settled(host, map);
}

// ---- joins ----

function joinNew(host) {
  return begins(host, JOIN);
}

function joinAdd(host, join, handle, line, column) {
  const it = handleOf(join, JOIN);
  const map = mapOf(handle);
  const place = [word(line), word(column)];
  if (it.isFreed || map.isNull) return host.told(Code.NULL_HANDLE);
  return adds(host, it, JOIN, (instance, at, _, to) =>
    gathering(instance, [map], ([part]) => instance.call('smap_join_add', at, part, ...place, to)),
  );
}

function joinFinish(host, join) {
  return finishes(host, join, JOIN, 'smap_join_finish');
}

// ---- builders ----

function builderNew(host) {
  return begins(host, BUILDER);
}

/** Answers the id of what was added. */
function addsText(host, builder, run) {
  const code = adds(host, builder, BUILDER, (it, at, lend, to) => run(it, at, lend, it.wordsAt, to));
  if (code === 0) host.words[0] = builder.instance.answer(ANSWER.WORDS);
  return code;
}

function builderAddName(host, builder, name) {
  const given = textOf(name);
  return addsText(host, builder, (it, at, lend, id, to) => it.call('smap_builder_add_name', at, ...lend.text(given), id, to));
}

function builderAddSource(host, builder, path, content) {
  const given = textOf(path);
  if (content === null) {
    return addsText(host, builder, (it, at, lend, id, to) => it.call('smap_builder_add_source', at, ...lend.text(given), id, to));
  }
  const known = textOf(content);
  return addsText(host, builder, (it, at, lend, id, to) =>
    it.call('smap_builder_add_source_and_content', at, ...lend.text(given), ...lend.text(known), id, to),
  );
}

function builderAddTokens(host, builder, tokens) {
  const all = wordsOf(tokens);
  const it = handleOf(builder, BUILDER);
  if (all.length % Words.TOKEN !== 0) return host.told(it.isFreed ? Code.NULL_HANDLE : Code.LENGTHS);
  return adds(host, it, BUILDER, (instance, at, lend, to) =>
    instance.call('smap_builder_add_tokens', at, lend.words(all), all.length / Words.TOKEN, to),
  );
}

function builderSetFile(host, builder, file) {
  const given = textOf(file);
  return adds(host, builder, BUILDER, (it, at, lend, to) => it.call('smap_builder_set_file', at, ...lend.text(given), to));
}

function builderFinish(host, builder) {
  return finishes(host, builder, BUILDER, 'smap_builder_finish');
}

module.exports = {
  joinNew,
  joinAdd,
  joinFinish,
  builderNew,
  builderAddName,
  builderAddSource,
  builderAddTokens,
  builderSetFile,
  builderFinish,
};
