// What another implementation of scopes says of random texts, for tools/compare/scopes.
//
//     node scopes_peer.mjs PEER SEED GOOD BROKEN
//
// PEER is the root file of the package source-map-scopes-codec. A line for each case, as a JSON list: the request to
// tools/compare/ask_scopes; the answer of the peer, as that writes it, or how the peer refuses the text; and the same for the text
// without the items that the crate passes over. GOOD texts are those of random trees; BROKEN ones are such texts with a change or two.
import { pathToFileURL } from "node:url";

const [peer, seed, good, broken] = process.argv.slice(2);
const { decode, DecodeMode, encode, ScopeInfoBuilder } = await import(pathToFileURL(peer));
const DIGITS = "ABCDEFGHIJKLMNOPQRSTUVWXYZabcdefghijklmnopqrstuvwxyz0123456789+/";

let state = Number(seed) >>> 0;

function below(limit) {
  state = (Math.imul(state, 1664525) + 1013904223) >>> 0;
  return Math.floor((state / 2 ** 32) * limit);
}

const oneOf = (list) => list[below(list.length)];
const chance = (percent) => below(100) < percent;

/** A position at or behind another, mostly close to it. */
function later({ line, column }) {
  const far = chance(3);
  if (chance(30)) return { line: line + 1 + below(far ? 100000 : 3), column: below(far ? 1000000 : 12) };
  return { line, column: column + (chance(20) ? 0 : below(far ? 1000000 : 8)) };
}

const NAMES = ["f", "g", "outer", "é", "a b", "constructor", "x", "y", "function", "block"];

const expression = () => (chance(30) ? undefined : oneOf(NAMES));

/** A value that changes in a range which starts at a position. */
function pieces(from) {
  const found = [];
  for (let n = 2 + below(3); n > 0; n--) {
    const to = later(from);
    found.push({ from, to, value: expression() });
    from = to;
  }
  return found;
}

/** Random trees, by the peer's builder. */
function trees() {
  const builder = new ScopeInfoBuilder();
  const known = [];
  const sources = below(4);
  const values = chance(75);
  const scope = (at, depth) => {
    const options = { isStackFrame: chance(45) };
    if (chance(60)) options.name = oneOf(NAMES);
    if (chance(60)) options.kind = oneOf(["function", "block", "class", "global"]);
    if (values) options.variables = Array.from({ length: below(4) }, () => oneOf(NAMES));
    builder.startScope(at.line, at.column, options);
    known.push(builder.currentScope());
    for (let n = depth > 3 ? 0 : below(4); n > 0; n--) at = scope(later(at), depth + 1);
    at = later(at);
    builder.endScope(at.line, at.column);
    return at;
  };
  for (let n = 0; n < sources; n++) {
    if (chance(20)) builder.addNullScope();
    else scope(later({ line: 0, column: 0 }), 0);
  }
  const range = (at, depth) => {
    const options = { isStackFrame: chance(25), isHidden: chance(20) };
    if (known.length > 0 && chance(75)) options.scope = oneOf(known);
    if (options.scope && chance(70)) options.values = options.scope.variables.map(() => (chance(40) ? pieces(at) : expression() ?? null));
    if (chance(45)) {
      const within = known.length > 0 && chance(60) ? oneOf(known).start : { line: below(6), column: below(20) };
      options.callSite = { sourceIndex: below(sources + 1), ...later(within) };
    }
    builder.startRange(at.line, at.column, options);
    for (let n = depth > 4 ? 0 : below(4); n > 0; n--) at = range(later(at), depth + 1);
    at = later(at);
    builder.endRange(at.line, at.column);
    return at;
  };
  let at = later({ line: 0, column: 0 });
  for (let n = below(4); n > 0; n--) at = later(range(at, 0));
  const map = { version: 3, mappings: "", sources: Array(sources).fill(null), names: chance(50) ? ["n0", "n1"] : [] };
  encode(builder.build(), map);
  return map;
}

/** Trees as lists in the order of starts: of each node the tree that it is in, and the index of its parent. */
function flat(roots) {
  const found = [];
  const add = (node, root, parent) => {
    const index = found.push({ node, root, parent }) - 1;
    for (const child of node.children) add(child, root, index);
  };
  roots.forEach((node, root) => node && add(node, root, null));
  return found;
}

const isBefore = (a, b) => a.line < b.line || (a.line === b.line && a.column < b.column);
const contains = (node, at) => !isBefore(at, node.start) && isBefore(at, node.end);

/** The nodes of a tree that contain a position, from the inside out. */
function containing(nodes, at) {
  for (const node of nodes) {
    if (node && contains(node, at)) return [...containing(node.children, at), node];
  }
  return [];
}

const innermost = (nodes, at) => containing(nodes, at)[0] ?? null;

/** The first stack frame of a scope and those around it. */
function functionOf(scope) {
  while (scope && !scope.isStackFrame) scope = scope.parent;
  return scope ?? null;
}

/** The frames at a position, by the rules of the format. */
function framesAt({ scopes, ranges }, at) {
  const inner = innermost(ranges, at);
  const found = { range: inner, isHidden: false, frames: [] };
  if (inner) found.frames.push([functionOf(inner.originalScope), null]);
  let range = inner;
  for (; range && !range.isStackFrame; range = range.parent) {
    const site = range.callSite;
    if (site) found.frames.push([functionOf(innermost([scopes[site.sourceIndex] ?? null], site)), site]);
  }
  found.isHidden = Boolean(range?.isHidden);
  return found;
}

/** The value of a variable at a position of its range, by the sub-range that contains it if it has some. */
function valueAt(value, at) {
  return Array.isArray(value) ? value.find(({ from, to }) => contains({ start: from, end: to }, at))?.value : value;
}

/** A scope and its parents, each with the innermost of some ranges whose scope it is. */
function chainIn(scope, around) {
  const found = [];
  for (; scope; scope = scope.parent) found.push([scope, around.find((range) => range.originalScope === scope)]);
  return found;
}

/** The scopes of a debugger for each frame at a position: from that of the innermost range, and from those at the places of calls, whose
 * values are not in the ranges within the body that was called. */
function chainsAt({ scopes, ranges }, at) {
  const around = containing(ranges, at);
  const chains = [chainIn(around[0]?.originalScope, around)];
  for (let i = 0; i < around.length && !around[i].isStackFrame; i++) {
    const site = around[i].callSite;
    if (site) chains.push(chainIn(innermost([scopes[site.sourceIndex] ?? null], site), around.slice(i + 1)));
  }
  return chains;
}

const word = (index) => (index === null || index === undefined || index < 0 ? "-" : String(index));
const flag = (holds) => (holds ? "1" : "0");
const place = ({ line, column }) => `${line}:${column}`;
const call = (site) => (site ? `${site.sourceIndex}:${place(site)}` : "-");

/** What was decoded, and what is at some positions, as tools/compare/ask_scopes writes it. */
function answer(info, names, positions) {
  const [scopes, ranges] = [flat(info.scopes), flat(info.ranges)];
  const ofScope = new Map(scopes.map(({ node }, index) => [node, index]));
  const ofRange = new Map(ranges.map(({ node }, index) => [node, index]));
  const named = (text) => word(text === undefined || text === null ? null : names.indexOf(text));
  const valuesAt = (range, at) => range?.values.map((value) => named(valueAt(value, at))) ?? [];
  const parts = [String(info.scopes.length)];
  for (const { node, root, parent } of scopes) {
    const said = [named(node.name), named(node.kind), flag(node.isStackFrame)];
    parts.push(["S", root, place(node.start), place(node.end), ...said, word(parent), ...node.variables.map(named)].join(" "));
  }
  for (const { node, parent } of ranges) {
    const said = [word(ofScope.get(node.originalScope)), flag(node.isStackFrame), flag(node.isHidden), call(node.callSite)];
    const values = node.values.map((value) => named(Array.isArray(value) ? value[0].value : value));
    parts.push(["R", place(node.start), place(node.end), ...said, word(parent), ...values].join(" "));
  }
  for (const position of positions) {
    if (position.length === 2) {
      const at = { line: position[0], column: position[1] };
      const { range, isHidden, frames } = framesAt(info, at);
      const shown = frames.map(([scope, site]) => `${word(ofScope.get(scope))} ${call(site)}`);
      parts.push(["F", word(ofRange.get(range)), flag(isHidden), ...shown].join(" "));
      const entry = ([scope, its]) => [";", word(ofScope.get(scope)), word(ofRange.get(its)), ...valuesAt(its, at)].join(" ");
      for (const chain of chainsAt(info, at)) parts.push(`C${chain.map(entry).join("")}`);
    } else {
      const scope = innermost([info.scopes[position[0]] ?? null], { line: position[1], column: position[2] });
      parts.push(`A ${word(ofScope.get(scope))} ${word(ofScope.get(functionOf(scope)))}`);
    }
  }
  return parts.join("|");
}

/** Positions at, before and behind the starts and ends of what was decoded, and others. */
function positionsOf(info) {
  const found = [];
  const near = (at) => [Math.max(0, at.line + (chance(10) ? below(3) - 1 : 0)), Math.max(0, at.column + below(3) - 1)];
  const [scopes, ranges] = [flat(info.scopes), flat(info.ranges)];
  for (let n = 0; n < 12; n++) {
    const range = chance(80) ? oneOf(ranges)?.node : null;
    const split = chance(50) ? range?.values.filter(Array.isArray) ?? [] : [];
    if (split.length > 0) found.push(near(oneOf(oneOf(split)).from));
    else found.push(range ? near(chance(70) ? range.start : range.end) : [below(8), below(20)]);
  }
  for (let n = 0; n < 6; n++) {
    const scope = chance(80) ? oneOf(scopes) : null;
    found.push(scope ? [scope.root, ...near(chance(70) ? scope.node.start : scope.node.end)] : [below(4), below(6), below(12)]);
  }
  return found;
}

/** Has variables, values or the like in two items, or behind scopes or ranges that are within. */
function spread(items, from) {
  const k = items.findIndex((item, n) => n >= from && "DGHI".includes(item[0] ?? "-"));
  if (k < 0) return;
  const item = items[k];
  const cut = chance(50) ? 1 : 1 + below(item.length);
  items.splice(k, 1, ...(cut > 1 ? [item.slice(0, cut)] : []));
  items.splice(k + below(8), 0, item[0] + item.slice(cut));
}

/** A text with a change. */
function changed(text) {
  const items = text.split(",");
  const i = below(items.length);
  const j = chance(50) ? Math.min(i + below(2), items.length - 1) : below(items.length);
  const at = below(text.length);
  switch (below(11)) {
    case 0:
      return text.slice(0, at) + oneOf(DIGITS) + text.slice(at + 1);
    case 1:
      return text.slice(0, at) + oneOf("!-_=;.{~\"") + text.slice(at + 1);
    case 2:
      return text.slice(0, at);
    case 3:
      return text.slice(0, at) + text.slice(at + 1);
    case 4:
      return text.slice(0, at) + oneOf("ABCDEFGHIJgh,") + text.slice(at);
    case 5:
      [items[i], items[j]] = [items[j], items[i]];
      break;
    case 6:
      items.splice(i, 1);
      break;
    case 7:
      items.splice(i, 0, items[j]);
      break;
    case 8:
      // The line of a range's start is told, which is the same.
      return text.replace(/E([ACEGIKMO])/, (_, flags) => `E${DIGITS[DIGITS.indexOf(flags) + 1]}A`);
    case 9:
      spread(items, i);
      break;
    default:
      items.splice(i, 0, Array.from({ length: 1 + below(6) }, (_, k) => (k === 0 ? oneOf("ABCDEFGHIJ") : oneOf("ABCDEFgB/"))).join(""));
  }
  return items.join(",");
}

/** The number of an item's tag; none if it does not begin with a number. */
function tagOf(item) {
  let [tag, scale] = [0, 1];
  for (const digit of item) {
    const value = DIGITS.indexOf(digit);
    if (value < 0) return null;
    tag += (value % 32) * scale;
    if (value < 32) return tag;
    scale *= 32;
  }
  return null;
}

/** A text without the items that are passed over, those of other tags. */
function kept(text) {
  return text.split(",").filter((item) => (tagOf(item) ?? 0) <= 8).join(",");
}

function decoded(text, names) {
  try {
    return decode({ version: 3, mappings: "", sources: [], names, scopes: text }, { mode: DecodeMode.STRICT });
  } catch (error) {
    return `refused: ${error.message}`;
  }
}

function write(text, names) {
  const infos = [...new Set([text, kept(text)])].map((it) => decoded(it, names));
  const shown = infos.find((it) => typeof it !== "string") ?? { scopes: [], ranges: [] };
  const positions = positionsOf(shown);
  const answers = infos.map((it) => (typeof it === "string" ? it : answer(it, names, positions)));
  if (answers.length === 1) answers.push(answers[0]);
  const words = [names.length, text, ...positions.map((it) => it.join(":"))];
  console.log(JSON.stringify([words.join(" "), ...answers]));
}

for (let n = 0; n < Number(good); n++) {
  const map = trees();
  write(map.scopes, map.names);
}
for (let n = 0; n < Number(broken); n++) {
  const map = trees();
  let text = map.scopes;
  for (let k = 1 + below(2); k > 0 && text !== ""; k--) text = changed(text);
  write(text, chance(20) ? map.names.slice(0, -1) : map.names);
}
