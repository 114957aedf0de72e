//! What maps hold, are made of and are taken apart into, and how they are changed.

use super::{Row, json, map_of, read, token, tokens};
use oxc_sourcemap::{JSONSourceMap, OwnedSourceMap, SourceMap, SourceMapParts, SourceViewToken, Token, TokenChunk};

/// A map with a value for each member.
const FULL: &str = r#"{"version":3,"file":"out.js","sourceRoot":"src","names":["f","g"],"sources":["a.ts","b.ts","c.ts"],"sourcesContent":["A",null,"C","past"],"ignoreList":[2,0,1,0,2],"mappings":"AAAAA,GCCEC;;A","debugId":"id-1"}"#;

fn full_parts() -> SourceMapParts<'static> {
    SourceMapParts {
        file: Some("out.js".into()),
        names: vec!["f".into(), "g".into()],
        source_root: Some("src".into()),
        sources: vec!["a.ts".into(), "b.ts".into(), "c.ts".into()],
        source_contents: vec![Some("A".into()), None, Some("C".into()), Some("past".into())],
        tokens: tokens(&[(0, 0, 0, 0, Some(0), Some(0)), (0, 3, 1, 2, Some(1), Some(1)), (2, 0, 1, 2, None, None)]),
        token_chunks: Some(vec![TokenChunk::new(0, 3, 0, 0, 0, 0, 0, 0)]),
        ignore_list: Some(vec![2, 0, 1, 0, 2]),
        debug_id: Some("id-1".into()),
    }
}

#[test]
fn a_map_is_read_with_all_its_members() {
    let map = read(FULL);
    assert_eq!(
        (map.get_file(), map.get_source_root(), map.get_debug_id()),
        (Some("out.js"), Some("src"), Some("id-1"))
    );
    assert_eq!(map.get_names().collect::<Vec<_>>(), ["f", "g"]);
    assert_eq!(map.get_sources().collect::<Vec<_>>(), ["a.ts", "b.ts", "c.ts"]);
    assert_eq!(map.get_source_contents().collect::<Vec<_>>(), [Some("A"), None, Some("C"), Some("past")]);
    assert_eq!(map.get_ignore_list(), Some(&[2, 0, 1, 0, 2][..]));
    assert_eq!(map.tokens(), &*full_parts().tokens);
    assert_eq!((map.get_names().len(), map.get_sources().len(), map.get_source_contents().len()), (2, 3, 4));
    assert_eq!((map.get_tokens().len(), map.get_source_view_tokens().len()), (3, 3));
    assert_eq!((map.get_name(1), map.get_name(2)), (Some("g"), None));
    assert_eq!((map.get_source(2), map.get_source(3)), (Some("c.ts"), None));
    assert_eq!(
        (map.get_source_content(0), map.get_source_content(1), map.get_source_content(4)),
        (Some("A"), None, None)
    );
    assert_eq!(map.get_source_content(3), Some("past"));
    assert_eq!((map.get_source_and_content(2), map.get_source_and_content(1)), (Some(("c.ts", "C")), None));
    assert_eq!((map.get_source_and_content(3), map.get_source_and_content(9)), (None, None));
}

#[test]
fn an_empty_map_has_nothing() {
    let map = SourceMap::default();
    assert_eq!((map.get_file(), map.get_source_root(), map.get_debug_id()), (None, None, None));
    assert_eq!((map.get_ignore_list(), map.get_token(0), map.get_name(0), map.get_source(0)), (None, None, None, None));
    assert_eq!(
        map.get_names().len() + map.get_sources().len() + map.get_source_contents().len() + map.tokens().len(),
        0
    );
    assert!(map.generate_lookup_table().is_empty() && map.lookup_token(&[], 0, 0).is_none());
    assert_eq!(map.to_json_string(), r#"{"version":3,"names":[],"sources":[],"mappings":""}"#);
}

#[test]
fn counts_are_those_of_the_lists() {
    let counts = read(FULL).counts();
    assert_eq!((counts.tokens, counts.names, counts.sources, counts.source_contents), (3, 2, 3, 4));
    assert_eq!((counts.ignore_list, counts.lines), (5, 3));
    let mut long = read(FULL);
    long.set_source_contents(vec![Some(&"x".repeat(100_000))]);
    assert!((100_000..110_000).contains(&long.counts().bytes), "{:?}", long.counts());
}

#[test]
fn a_token_is_found_before_and_after_the_list_was_lent() {
    let map = read(FULL);
    let second = token((0, 3, 1, 2, Some(1), Some(1)));
    assert_eq!((map.get_token(1), map.get_token(3)), (Some(second), None));
    assert_eq!(map.get_tokens().nth(1), Some(second));
    assert_eq!((map.get_token(1), map.get_token(3)), (Some(second), None));
}

#[test]
fn tokens_know_their_numbers() {
    let token = Token::new(1, 2, 3, 4, Some(5), Some(6));
    assert_eq!((token.get_dst_line(), token.get_dst_col(), token.get_src_line(), token.get_src_col()), (1, 2, 3, 4));
    assert_eq!((token.get_source_id(), token.get_name_id()), (Some(5), Some(6)));
    let bare = Token::new(1, 2, 3, 4, None, None);
    assert_eq!((bare.get_source_id(), bare.get_name_id()), (None, None));
    assert_eq!(bare, Token::new(1, 2, 3, 4, Some(u32::MAX), Some(u32::MAX)));
    let chunk = TokenChunk::new(1, 2, 3, 4, 5, 6, 7, 8);
    assert_eq!((chunk.start, chunk.end, chunk.prev_dst_line, chunk.prev_dst_col), (1, 2, 3, 4));
    assert_eq!((chunk.prev_src_line, chunk.prev_src_col, chunk.prev_name_id, chunk.prev_source_id), (5, 6, 7, 8));
}

#[test]
fn views_know_the_texts_of_tokens() {
    let map = read(FULL);
    let view = map.get_source_view_token(1).unwrap();
    assert_eq!((view.get_dst_line(), view.get_dst_col(), view.get_src_line(), view.get_src_col()), (0, 3, 1, 2));
    assert_eq!((view.get_source_id(), view.get_name_id()), (Some(1), Some(1)));
    assert_eq!(view.to_tuple(), (Some("b.ts"), 1, 2, Some("g")));
    assert_eq!((view.get_source_content(), view.get_source_and_content()), (None, None));
    let first = map.get_source_view_tokens().next().unwrap();
    assert_eq!((first.get_source_content(), first.get_source_and_content()), (Some("A"), Some(("a.ts", "A"))));
    let unmapped = map.get_source_view_token(2).unwrap();
    assert_eq!(unmapped.to_tuple(), (None, 1, 2, None));
    assert_eq!((unmapped.get_source_content(), unmapped.get_source_and_content()), (None, None));
    assert!(map.get_source_view_token(3).is_none());
    let foreign = SourceViewToken::new(Token::new(0, 0, 0, 0, Some(9), Some(9)), &map);
    assert_eq!((foreign.get_source(), foreign.get_name(), foreign.get_source_id()), (None, None, Some(9)));
}

#[test]
fn parts_make_the_map_that_they_were_taken_of() {
    let parts = full_parts();
    let map: SourceMap<'_> = parts.clone().into();
    assert_eq!(map.to_json_string(), FULL);
    let back = map.into_parts();
    assert_eq!((&back.file, &back.names, &back.source_root), (&parts.file, &parts.names, &parts.source_root));
    assert_eq!((&back.sources, &back.source_contents), (&parts.sources, &parts.source_contents));
    assert_eq!((&back.tokens, &back.token_chunks), (&parts.tokens, &parts.token_chunks));
    assert_eq!((&back.ignore_list, &back.debug_id), (&parts.ignore_list, &parts.debug_id));
    assert_eq!(OwnedSourceMap::from_parts(back).into_parts().debug_id, parts.debug_id);
    assert_eq!(read(FULL).into_parts().token_chunks, None);
}

#[test]
fn parts_are_not_checked() {
    let mut parts = full_parts();
    parts.tokens = tokens(&[(1, 0, 0, 0, Some(9), None), (0, 0, 0, 0, None, Some(7)), (0, 0, 0, 0, Some(1), Some(1))]);
    parts.ignore_list = Some(vec![77]);
    let map = SourceMap::from_parts(parts.clone());
    assert!(!map.is_sorted() && !map.is_sound());
    let back = map.into_parts();
    assert_eq!((&back.tokens, &back.names, &back.sources), (&parts.tokens, &parts.names, &parts.sources));
    assert_eq!((&back.source_contents, &back.ignore_list), (&parts.source_contents, &parts.ignore_list));
    assert_eq!((&back.file, &back.source_root, &back.debug_id), (&parts.file, &parts.source_root, &parts.debug_id));
}

#[test]
fn soundness_is_order_and_ids() {
    let is = |rows, ignored: &[u32]| {
        let mut map = map_of(&["n"], &["a.ts"], rows);
        map.set_ignore_list(ignored.to_vec());
        (map.is_sorted(), map.is_sound())
    };
    assert_eq!(is(&[(0, 0, 0, 0, Some(0), Some(0)), (0, 0, 0, 0, None, None)], &[0]), (true, true));
    assert_eq!(is(&[(0, 1, 0, 0, Some(0), None), (0, 0, 0, 0, None, None)], &[]), (false, false));
    assert_eq!(is(&[(0, 0, 0, 0, Some(1), None)], &[]), (true, false));
    assert_eq!(is(&[(0, 0, 0, 0, Some(0), Some(1))], &[]), (true, false));
    assert_eq!(is(&[(0, 0, 0, 0, Some(0), Some(0))], &[1]), (true, false));
}

#[test]
fn setters_set() {
    let mut map = SourceMap::default();
    map.set_file("index.js");
    map.set_source_root("root");
    map.set_debug_id("id");
    map.set_sources(vec!["a.ts".to_string(), "b.ts".to_string()]);
    map.set_source_contents(vec![None, Some("")]);
    map.set_ignore_list(vec![1]);
    assert_eq!(
        map.to_json_string(),
        json(
            r#""file":"index.js","sourceRoot":"root","names":[],"sources":["a.ts","b.ts"],"sourcesContent":[null,""],"ignoreList":[1],"mappings":"","debugId":"id""#
        )
    );
    assert_eq!(map.get_ignore_list(), Some(&[1][..]));
    map.set_ignore_list(vec![]);
    assert_eq!(map.get_ignore_list(), Some(&[][..]));
    map.set_file("");
    map.set_sources(["c.ts"]);
    assert_eq!((map.get_file(), map.get_source(0), map.get_source(1)), (Some(""), Some("c.ts"), None));
}

#[test]
fn setters_leave_the_tokens() {
    let mut map = read(FULL);
    map.set_sources(Vec::<&str>::new());
    assert_eq!(map.tokens(), &*full_parts().tokens);
    assert_eq!(map.get_source_view_token(0).unwrap().get_source(), None);
}

#[test]
fn a_clone_is_a_map_of_its_own() {
    let map = SourceMap::from_parts(full_parts());
    let mut clone = map.clone();
    clone.set_file("other.js");
    assert_eq!((map.get_file(), clone.get_file()), (Some("out.js"), Some("other.js")));
    drop(map);
    assert_eq!(clone.into_parts().token_chunks, full_parts().token_chunks);
}

#[test]
fn sorting_and_simplifying_forget_what_was_lent() {
    let mut map = map_of(&[], &["a.ts", "b.ts"], &[(0, 5, 0, 0, Some(1), None), (0, 2, 3, 3, Some(1), None)]);
    map.set_ignore_list(vec![1]);
    assert_eq!((map.tokens()[0].get_dst_col(), map.get_ignore_list()), (5, Some(&[1][..])));
    map.sort().unwrap();
    assert_eq!((map.tokens()[0].get_dst_col(), map.is_sorted()), (2, true));
    map.simplify().unwrap();
    assert_eq!((map.tokens()[0].get_source_id(), map.get_ignore_list()), (Some(0), Some(&[0][..])));
    assert_eq!(map.get_sources().collect::<Vec<_>>(), ["b.ts"]);
}

#[test]
fn a_map_is_printed_with_all_its_members() {
    let shown = format!("{:?}", SourceMap::from_parts(full_parts()));
    for part in
        ["SourceMap", "out.js", "src", "\"g\"", "c.ts", "past", "dst_col: 3", "prev_name_id", "[2, 0, 1, 0, 2]", "id-1"]
    {
        assert!(shown.contains(part), "{part} is not in {shown}");
    }
}

#[test]
fn an_owned_map_has_the_calls_of_a_map() {
    let mut map = OwnedSourceMap::from_json_string(FULL).unwrap();
    assert_eq!(
        (map.get_file(), map.get_source_root(), map.get_debug_id()),
        (Some("out.js"), Some("src"), Some("id-1"))
    );
    assert_eq!(map.get_names().collect::<Vec<_>>(), ["f", "g"]);
    assert_eq!((map.get_sources().count(), map.get_source_contents().count()), (3, 4));
    assert_eq!((map.get_name(0), map.get_source(0), map.get_source_content(0)), (Some("f"), Some("a.ts"), Some("A")));
    assert_eq!(
        (map.get_source_and_content(0), map.get_ignore_list()),
        (Some(("a.ts", "A")), Some(&[2, 0, 1, 0, 2][..]))
    );
    assert_eq!((map.get_token(0), map.get_tokens().next()), (map.as_source_map().get_token(0), map.get_token(0)));
    assert_eq!(map.get_source_view_token(0).unwrap().to_tuple(), (Some("a.ts"), 0, 0, Some("f")));
    assert_eq!(map.get_source_view_tokens().count(), 3);
    let table = map.generate_lookup_table();
    assert_eq!(map.lookup_token(&table, 0, 4), map.get_token(1));
    assert_eq!(map.lookup_token_approx(&table, 0, 4), map.get_token(1));
    assert_eq!(map.lookup_source_view_token(&table, 0, 0).unwrap().get_name(), Some("f"));
    assert_eq!(map.lookup_source_view_token_approx(&table, 0, 0).unwrap().get_name(), Some("f"));
    assert_eq!((map.to_json_string(), map.to_json().mappings), (FULL.to_string(), "AAAAA,GCCEC;;A".to_string()));
    assert_eq!(map.to_data_url(), map.as_source_map().to_data_url());
    assert_eq!(OwnedSourceMap::from_json(map.to_json()).unwrap().to_json_string(), FULL);
    map.set_file("new.js");
    map.set_debug_id("new");
    map.set_sources(["x.ts"]);
    map.set_source_contents(vec![Some("X")]);
    map.set_ignore_list(vec![]);
    assert_eq!((map.get_file(), map.get_debug_id(), map.get_source(0)), (Some("new.js"), Some("new"), Some("x.ts")));
    assert_eq!((map.get_source_content(0), map.get_ignore_list()), (Some("X"), Some(&[][..])));
}

#[test]
fn an_owned_map_is_looked_up_as_a_map_is() {
    let rows = [(0, 3, 0, 1, Some(0), Some(0)), (0, 3, 0, 2, Some(0), None), (0, 7, 0, 3, Some(0), None)];
    let map = map_of(&["f"], &["a.ts"], &[rows[0], rows[1], rows[2], (2, 1, 5, 0, None, None)]);
    let (owned, table) = (OwnedSourceMap::new(map.clone()), map.generate_lookup_table());
    let of =
        |view: Option<SourceViewToken<'_, '_>>| view.map(|it| (it.get_dst_line(), it.get_dst_col(), it.get_src_col()));
    for (line, col) in (0..4).flat_map(|line| (0..9).map(move |col| (line, col))) {
        let place = format!("{line}:{col}");
        // By the rows: the exact lookups find nothing before the first token of a line, and the others find that one.
        let exact = match (line, col) {
            (0, 3) => Some(rows[0]),
            (0, 4..7) => Some(rows[1]),
            (0, 7..) => Some(rows[2]),
            (2, 1..) => Some((2, 1, 5, 0, None, None)),
            _ => None,
        };
        let first = [Some(rows[0]), None, Some((2, 1, 5, 0, None, None)), None][line as usize];
        let clamped = exact.or(first);
        assert_eq!(owned.lookup_token(&table, line, col), exact.map(token), "{place}");
        assert_eq!(owned.lookup_token_approx(&table, line, col), clamped.map(token), "{place}");
        let placed = |row: Row| (row.0, row.1, row.3);
        assert_eq!(of(owned.lookup_source_view_token(&table, line, col)), exact.map(placed), "{place}");
        assert_eq!(of(owned.lookup_source_view_token_approx(&table, line, col)), clamped.map(placed), "{place}");
        assert_eq!(owned.lookup_token_approx(&table, line, col), map.lookup_token_approx(&table, line, col), "{place}");
    }
}

#[test]
fn a_map_without_its_lifetime_has_all_that_it_had() {
    let shown = format!("{:?}", SourceMap::from_parts(full_parts()));
    let parts = |map: SourceMap<'static>| (format!("{map:?}"), map.into_parts().token_chunks);
    let wanted = (shown, full_parts().token_chunks);
    let (map, lent) = (SourceMap::from_parts(full_parts()), SourceMap::from_parts(full_parts()));
    // (also what was lent before is what is lent then)
    assert_eq!((lent.tokens().len(), lent.get_ignore_list().map(<[u32]>::len)), (3, Some(5)));
    assert_eq!(parts(map.into_owned()), wanted);
    assert_eq!(parts(lent.into_owned()), wanted);
    assert_eq!(parts(SourceMap::from_parts(full_parts()).into_owned_sourcemap().into_inner()), wanted);
    assert_eq!(OwnedSourceMap::from_parts(full_parts()).into_parts().token_chunks, wanted.1);
}

#[test]
fn an_owned_map_is_a_map() {
    let inner = read(FULL).into_owned();
    let mut owned = OwnedSourceMap::from(inner.clone());
    owned.as_source_map_mut().set_file("a.js");
    assert_eq!(owned.as_source_map().get_file(), Some("a.js"));
    let lent: &mut SourceMap<'static> = &mut owned;
    lent.set_file("b.js");
    let lent: &SourceMap<'static> = &owned;
    assert_eq!((lent.get_file(), owned.is_sound()), (Some("b.js"), true));
    let back: SourceMap<'static> = OwnedSourceMap::new(inner).into();
    assert_eq!(back.into_owned_sourcemap().into_inner().get_file(), Some("out.js"));
    assert_eq!(OwnedSourceMap::default().get_tokens().count(), 0);
}

#[test]
fn a_read_map_outlives_its_text() {
    let map = {
        let text = FULL.to_string();
        SourceMap::from_json_string(&text).unwrap().into_owned()
    };
    assert_eq!(map.to_json_string(), FULL);
}

#[test]
fn json_fields_and_maps_say_the_same() {
    let json = read(FULL).to_json();
    let wanted = JSONSourceMap {
        version: 3,
        file: Some("out.js".into()),
        mappings: "AAAAA,GCCEC;;A".into(),
        source_root: Some("src".into()),
        sources: vec!["a.ts".into(), "b.ts".into(), "c.ts".into()],
        sources_content: Some(vec![Some("A".into()), None, Some("C".into()), Some("past".into())]),
        names: vec!["f".into(), "g".into()],
        debug_id: Some("id-1".into()),
        ignore_list: Some(vec![2, 0, 1, 0, 2]),
    };
    assert_eq!(json, wanted);
    assert_eq!(SourceMap::from_json(json).unwrap().to_json_string(), FULL);
}
