//! Programs that must not compile: each keeps what a call returns longer than its owner. Its twin, which drops it first, compiles and runs,
//! so that the refusal is for that reason alone.

macro_rules! lent {
    ($($name:ident: $owner:ident, $lent:literal;)*) => {$(
        #[doc = concat!(
            "```compile_fail,E0505\n", head!(), owner!($owner), "let lent = ", $lent, ";\ndrop(owner);\nkept(lent);\n```\n",
            "```\n", head!(), owner!($owner), "let lent = ", $lent, ";\nkept(lent);\ndrop(owner);\n```",
        )]
        struct $name;
    )*};
}

macro_rules! head {
    () => {
        r##"# use oxc_sourcemap::*;
# const TEXT: &str = r#"{"version":3,"file":"o","sourceRoot":"r","names":["n"],"sources":["s"],"sourcesContent":["c"],"ignoreList":[0],"mappings":"AAAAA","debugId":"d"}"#;
# fn kept<T>(_: T) {}
# let other = SourceMap::from_json_string(TEXT).unwrap();
# let table = other.generate_lookup_table();
"##
    };
}

macro_rules! owner {
    (map) => {
        "let mut owner = SourceMap::from_json_string(TEXT).unwrap();\nowner.set_file(\"o\");\n"
    };
    (owned) => {
        "let mut owner = OwnedSourceMap::from_json_string(TEXT).unwrap();\nowner.set_file(\"o\");\n"
    };
    (bytes) => {
        "let owner = other.compile(0, &[0; 32]).unwrap();\n"
    };
    (file) => {
        r##"# let path = std::env::temp_dir().join(format!("{}-{:?}.map.smc", std::process::id(), std::thread::current().id()));
# std::fs::write(&path, other.compile(0, &[0; 32]).unwrap()).unwrap();
let owner = unsafe { CompiledFile::open(&path) }.unwrap();
# std::fs::remove_file(&path).unwrap();
"##
    };
    (scopes) => {
        "let owner = Scopes::decode(\"BFAAA,CJA,EGAA,FJA\", 1).unwrap();\n"
    };
    (text) => {
        "let owner = \"//# sourceMappingURL=a.map\".to_string();\n"
    };
}

lent! {
    File: map, "owner.get_file().unwrap()";
    SourceRoot: map, "owner.get_source_root().unwrap()";
    DebugId: map, "owner.get_debug_id().unwrap()";
    IgnoreList: map, "owner.get_ignore_list().unwrap()";
    NameOfNames: map, "owner.get_names().next().unwrap()";
    SourceOfSources: map, "owner.get_sources().next().unwrap()";
    ContentOfSourceContents: map, "owner.get_source_contents().next().unwrap().unwrap()";
    Name: map, "owner.get_name(0).unwrap()";
    Source: map, "owner.get_source(0).unwrap()";
    SourceContent: map, "owner.get_source_content(0).unwrap()";
    SourceOfBoth: map, "owner.get_source_and_content(0).unwrap().0";
    ContentOfBoth: map, "owner.get_source_and_content(0).unwrap().1";
    TokenList: map, "owner.tokens()";
    Tokens: map, "owner.get_tokens()";
    View: map, "owner.get_source_view_token(0).unwrap()";
    ViewOfViews: map, "owner.get_source_view_tokens().next().unwrap()";
    ViewMade: map, "SourceViewToken::new(other.get_token(0).unwrap(), &owner)";
    ViewName: map, "owner.get_source_view_token(0).unwrap().get_name().unwrap()";
    ViewSource: map, "owner.get_source_view_token(0).unwrap().get_source().unwrap()";
    ViewContent: map, "owner.get_source_view_token(0).unwrap().get_source_content().unwrap()";
    ViewSourceOfBoth: map, "owner.get_source_view_token(0).unwrap().get_source_and_content().unwrap().0";
    ViewContentOfBoth: map, "owner.get_source_view_token(0).unwrap().get_source_and_content().unwrap().1";
    ViewSourceOfTuple: map, "owner.get_source_view_token(0).unwrap().to_tuple().0";
    ViewNameOfTuple: map, "owner.get_source_view_token(0).unwrap().to_tuple().3";
    Table: map, "owner.generate_lookup_table()";
    LineOfTable: map, "owner.generate_lookup_table()[0]";
    TriedTable: map, "owner.try_generate_lookup_table().unwrap()";
    Lookup: map, "owner.lookup_source_view_token(&table, 0, 0).unwrap()";
    LookupApprox: map, "owner.lookup_source_view_token_approx(&table, 0, 0).unwrap()";
    Trace: map, "owner.trace(0, 0, Bias::Before).unwrap()";
    OriginalOfTrace: map, "owner.trace(0, 0, Bias::Before).unwrap().original().unwrap()";
    SourceOfTrace: map, "owner.trace(0, 0, Bias::Before).unwrap().original().unwrap().source";
    NameOfTrace: map, "owner.trace(0, 0, Bias::Before).unwrap().original().unwrap().name";
    TraceAll: map, "owner.trace_all(&[Position::new(0, 0)], Bias::Before).unwrap()";
    VisualizerMap: map, "SourcemapVisualizer::new(\"\", &owner)";
    VisualizerCode: text, "SourcemapVisualizer::new(&owner, &other)";
    MappingUrl: text, "source_mapping_url(&owner, Language::JavaScript).unwrap()";

    // (what a compiled map returns is borrowed from the bytes: each twin drops the map)
    Compiled: bytes, "CompiledMap::open(&owner).unwrap()";
    CompiledName: bytes, "CompiledMap::open(&owner).unwrap().get_name(0).unwrap()";
    CompiledSource: bytes, "CompiledMap::open(&owner).unwrap().get_source(0).unwrap()";
    CompiledSourceContent: bytes, "CompiledMap::open(&owner).unwrap().get_source_content(0).unwrap()";
    CompiledFileName: bytes, "CompiledMap::open(&owner).unwrap().get_file().unwrap()";
    CompiledSourceRoot: bytes, "CompiledMap::open(&owner).unwrap().get_source_root().unwrap()";
    CompiledDebugId: bytes, "CompiledMap::open(&owner).unwrap().get_debug_id().unwrap()";
    CompiledTrace: bytes, "CompiledMap::open(&owner).unwrap().trace(0, 0, Bias::Before)";
    CompiledTraceAll: bytes, "CompiledMap::open(&owner).unwrap().trace_all(&[Position::new(0, 0)], Bias::Before).unwrap()";

    ScopeList: scopes, "owner.get_scopes()";
    RangeList: scopes, "owner.get_ranges()";

    CompiledInFile: file, "owner.map()";
    CompiledFileSource: file, "owner.map().get_source(0).unwrap()";
    CompiledFileTrace: file, "owner.map().trace(0, 0, Bias::Before)";

    OwnedMap: owned, "owner.as_source_map()";
    OwnedMapMut: owned, "owner.as_source_map_mut()";
    OwnedDeref: owned, "&*owner";
    OwnedDerefMut: owned, "&mut *owner";
    OwnedFile: owned, "owner.get_file().unwrap()";
    OwnedSourceRoot: owned, "owner.get_source_root().unwrap()";
    OwnedDebugId: owned, "owner.get_debug_id().unwrap()";
    OwnedIgnoreList: owned, "owner.get_ignore_list().unwrap()";
    OwnedNameOfNames: owned, "owner.get_names().next().unwrap()";
    OwnedSourceOfSources: owned, "owner.get_sources().next().unwrap()";
    OwnedContentOfSourceContents: owned, "owner.get_source_contents().next().unwrap().unwrap()";
    OwnedName: owned, "owner.get_name(0).unwrap()";
    OwnedSource: owned, "owner.get_source(0).unwrap()";
    OwnedSourceContent: owned, "owner.get_source_content(0).unwrap()";
    OwnedSourceOfBoth: owned, "owner.get_source_and_content(0).unwrap().0";
    OwnedContentOfBoth: owned, "owner.get_source_and_content(0).unwrap().1";
    OwnedTokens: owned, "owner.get_tokens()";
    OwnedView: owned, "owner.get_source_view_token(0).unwrap()";
    OwnedViewOfViews: owned, "owner.get_source_view_tokens().next().unwrap()";
    OwnedTable: owned, "owner.generate_lookup_table()";
    OwnedLineOfTable: owned, "owner.generate_lookup_table()[0]";
    OwnedLookup: owned, "owner.lookup_source_view_token(&table, 0, 0).unwrap()";
    OwnedLookupApprox: owned, "owner.lookup_source_view_token_approx(&table, 0, 0).unwrap()";
}
