// What `tsc --strict` has to accept, and to refuse.
import junketscarp, {
  Bias,
  Code,
  CompiledCounts,
  CompiledMap,
  ConcatSourceMapBuilder,
  Direction,
  FaultPlace,
  FoundToken,
  FrameView,
  GeneratedRange,
  Language,
  Mapping,
  Mend,
  NO_ID,
  Original,
  OriginalScope,
  Piece,
  RawSourceMap,
  ScopeChainEntry,
  ScopeFrame,
  ScopeVariable,
  ScopeView,
  Scopes,
  ScopesCounts,
  ScopesFault,
  Segment,
  SourceMap,
  SourceMapBuilder,
  SourceMapError,
  SourceView,
  decodeDataURL,
  decodeMappings,
  encodeMappings,
  evaluate,
  sourceMappingURL,
} from "../lib/index";

async function uses(bytes: Uint8Array): Promise<void> {
  const map = new SourceMap(bytes);
  const other: SourceMap = await SourceMap.read("{}");
  const found: { map: SourceMap; mends: Mend[] } = SourceMap.found(bytes);
  const original: Original | null = map.trace(0, 1, Bias.AFTER);
  const name: string | null | undefined = original?.name;
  const token: FoundToken | null = map.traceToken(0, 1);
  const answers: Uint32Array = map.traceAll(Uint32Array.of(0, 1), Bias.BEFORE, new Uint32Array(8));
  const indices: Uint32Array = map.findAll(Uint32Array.of(0, 1));
  const pieces: Piece[] = map.pieces({ line: 0, column: 0 }, { line: 1, column: 0 });
  const back: FoundToken | null = map.generated(0, 1, 2, Direction.FOR);
  const all: Uint32Array = map.allGenerated(0, 1, 2);
  const names: readonly string[] = map.names;
  const raw: RawSourceMap = map.toJSON();
  map.setSources(new Set(["a"]));
  map.setSourcesContent(["a", null, bytes]);
  const joined = SourceMap.join([{ map, line: 0 }, { map: other, line: 1, column: 2 }]);
  const made = SourceMap.fromTokens(map.tokens(), { names, sources: map.sources, sourcesContent: map.sourcesContent, ignoreList: [0] });
  const remapped = joined.remap({ "a.js": made }).remap([["a", map]]).remap(new Map([["a", map]]));
  const shared: SourceMap = SourceMap.shared(remapped.share());
  shared[Symbol.dispose]();
  const builder = new SourceMapBuilder();
  const id: number = builder.addSource("a", null);
  builder.addToken(0, 0, 0, 0, id, null);
  builder.addTokens([{ generatedLine: 0, generatedColumn: 0, originalLine: 0, originalColumn: 0, sourceId: null, nameId: null }]);
  const concat = new ConcatSourceMapBuilder();
  concat.addSourceMap(builder.finish(), 7);
  const text: string = evaluate("@0", [map.toString()]).mappings + encodeMappings(decodeMappings("A", { names: 1 }));
  const url: string | null = sourceMappingURL(text, Language.CSS) ?? decodeDataURL(text);
  const compiled = new CompiledMap(map.compile({ textLength: 7, stamp: new Uint8Array(32) }));
  const counts: CompiledCounts = new CompiledMap(new SharedArrayBuffer(0)).counts ?? new CompiledMap(new DataView(bytes.buffer)).counts;
  const known: [Original | null, FoundToken | null, string | null, Uint8Array, boolean] =
    [compiled.trace(0, 1, Bias.CLAMPED), compiled.token(0), compiled.getSource(0), compiled.stamp, compiled.isIgnored(0)];
  const again: SourceMap = CompiledMap.openFile("a.smc").decompile() ?? CompiledMap.openFile(new URL("file:///a.smc")).decompile();
  compiled.free();
  void [counts, known, again];
  const scopes: Scopes = Scopes.decode("", 7) ?? Scopes.decode(bytes, new Set(["a"])) ?? Scopes.read({ version: 3, sources: [], mappings: "", scopes: "A" }) ?? Scopes.read(bytes);
  const all_: [ScopesCounts, readonly OriginalScope[], readonly GeneratedRange[]] = [scopes.counts, scopes.scopes, scopes.ranges];
  const one: [OriginalScope | null, GeneratedRange | null] = [scopes.scopeAt(0, 1, 2) ?? scopes.functionAt({ source: 0, line: 1, column: 2 }), scopes.rangeAt({ line: 0, column: 1 })];
  const frame: ScopeFrame | undefined = scopes.framesAt(0, 1).frames[0] ?? scopes.framesAt({ line: 0, column: 1 }).frames[1];
  const caller: number | undefined = frame?.call?.line;
  const hidden: boolean = scopes.framesAt(0, 0).isHidden;
  const chain: readonly ScopeChainEntry[] | null = scopes.scopeChain(0, 1, 2) ?? scopes.scopeChain(0, { line: 0, column: 1 });
  const variable: ScopeVariable | undefined = chain?.[0]?.variables[0] ?? scopes.scopeChainAt({ line: 0, column: 1 })[0]?.variables[0];
  const texts: (string | null | undefined)[] = [variable?.value, scopes.variables(0)?.[0]?.name, scopes.valueAt(0, 0, 1, 2)?.value, scopes.valueAt(0, 0, { line: 1, column: 2 })?.value];
  const view: SourceView = scopes.view(map, 0, 1, Bias.AFTER) ?? scopes.view(compiled, { line: 0, column: 1, bias: Bias.BEFORE });
  const [shown]: readonly FrameView[] = view.frames;
  const inner: ScopeView | undefined = shown?.scopes[0];
  const seen: (string | number | null | undefined)[] = [shown?.name, shown?.source, shown?.line, inner?.kind, inner?.name, inner?.scope, inner?.range, inner?.variables[0]?.value];
  const valued: Scopes = Scopes.read({ version: 3, scopes: null }) ?? Scopes.read({ scopes: "", names: ["f"] }) ?? Scopes.read({ version: 3 });
  scopes[Symbol.dispose]();
  void [seen, valued, all_, one, caller, hidden, scopes.scopeChainAt(0, 1).length, texts];
  void [found, name, token, answers, indices, pieces, back, all, raw, concat, url, NO_ID];
}

async function triesFirst(url: URL, value: { version: number; sources: string[]; names: string[]; mappings: string }): Promise<void> {
  const map: SourceMap = new junketscarp.SourceMap(value, { keepUnknown: true });
  const decoded: Segment[][] = map.decodedMappings;
  const other = new SourceMap({ version: 3, sources: ["a", null], mappings: decoded });
  new SourceMap({ version: 3, sections: [{ offset: { line: 0, column: 0 }, map: value }] });
  new SourceMap(map);
  await SourceMap.read(url);
  SourceMap.found(url, { keepUnknown: false });
  const source: string | undefined = map.trace({ line: 0, column: 1, bias: Bias.AFTER })?.source;
  const token: FoundToken | null = map.traceToken({ line: 0, column: 1 }) ?? map.generated("a", 0, 1) ?? map.generated({ source: 0, line: 0, column: 1, direction: Direction.FROM });
  const indices: Uint32Array = map.allGenerated({ source: "a", line: 0, column: 1 });
  const content: string | null = map.getSourceContent("a");
  for (const mapping of map) {
    const line: number | null = mapping.originalLine;
    void line;
  }
  other.eachMapping((mapping: Mapping) => void mapping.name);
  const text: string = encodeMappings(decoded) + encodeMappings([[[0], [1, 0, 0, 0, 0]]]) + SourceMap.fromMappings(decoded).mappings;
  const backend: "addon" | "module" = SourceMap.backend;
  const kept: unknown = map.unknownMembers?.x_a;
  void [source, token, indices, content, text, backend, kept];
}

function tells(error: unknown): string {
  if (!(error instanceof SourceMapError)) return "";
  const code: Code = error.code;
  const place: FaultPlace | null = error.place;
  const reason: ScopesFault | null = error.reason;
  return `${code} ${reason ?? ""} ${error.detail} ${error.field ?? ""} ${place?.kind ?? ""} ${error.placeMessage} ${error.message}`;
}

function refused(map: SourceMap): void {
  // @ts-expect-error: a column is needed
  map.trace(0);
  // @ts-expect-error: nor of an object
  map.trace({ line: 0 });
  // @ts-expect-error: it is no value of a map
  new SourceMap({});
  // @ts-expect-error: a segment has 1, 4 or 5 numbers
  encodeMappings([[[0, 0]]]);
  // @ts-expect-error: it is only read
  SourceMap.backend = "addon";
  // @ts-expect-error: no such option
  map.compile({ textlength: 7 });
  // @ts-expect-error: no such bias
  map.trace(0, 0, 3);
  // @ts-expect-error: numbers are unsigned words
  map.findAll([0, 1]);
  // @ts-expect-error: names are only read
  map.names = [];
  // @ts-expect-error: as their entries are
  map.names[0] = "a";
  // @ts-expect-error: there may be no answer
  map.trace(0, 0).line;
  // @ts-expect-error: nor are scopes
  new Scopes();
  // @ts-expect-error: names, or how many there are
  Scopes.decode("");
  // @ts-expect-error: names are strings
  Scopes.decode("", [1, null]);
  // @ts-expect-error: no value of a map
  Scopes.read({});
  // @ts-expect-error: frames are only read
  Scopes.decode("", 0).framesAt(0, 0).frames.pop();
  // @ts-expect-error: so are variables
  Scopes.decode("", 0).scopeChainAt(0, 0)[0]!.variables.pop();
  // @ts-expect-error: errors are not made
  new SourceMapError("a");
  // @ts-expect-error: no such code
  const code: Code = "SMAP_NONE";
  void code;
}

void [uses, triesFirst, tells, refused];
