//! Joins of maps, and tokens that stand at their seams.

use super::{map_of, read, token};
use oxc_sourcemap::{ConcatSourceMapBuilder, Error, Position, SourceMap, SourceMapParts};

fn three() -> [SourceMap<'static>; 3] {
    [
        map_of(&["foo", "foo2"], &["foo.js"], &[(1, 1, 1, 1, Some(0), Some(0))]),
        map_of(&["bar"], &["bar.js"], &[(1, 1, 1, 1, Some(0), Some(0))]),
        map_of(&["abc"], &["abc.js"], &[(1, 2, 2, 2, Some(0), Some(0))]),
    ]
}

fn are_joined(map: &SourceMap<'_>) {
    assert_eq!(map.get_names().collect::<Vec<_>>(), ["foo", "foo2", "bar", "abc"]);
    assert_eq!(map.get_sources().collect::<Vec<_>>(), ["foo.js", "bar.js", "abc.js"]);
    let wanted =
        [(1, 1, 1, 1, Some(0), Some(0)), (3, 1, 1, 1, Some(1), Some(2)), (3, 2, 2, 2, Some(2), Some(3))].map(token);
    assert_eq!(map.tokens(), wanted);
    assert_eq!(map.to_json().mappings, ";CACCA;;CCAAE,CCCCC");
}

#[test]
fn every_way_to_join_gives_the_same() {
    let [first, second, third] = three();
    let lines = [(&first, 0), (&second, 2), (&third, 2)];
    let mut builder = ConcatSourceMapBuilder::default();
    for (map, line) in lines {
        builder.add_sourcemap(map, line);
    }
    are_joined(&builder.into_sourcemap());
    are_joined(&ConcatSourceMapBuilder::from_sourcemaps(&lines).into_sourcemap());
    let mut builder = ConcatSourceMapBuilder::with_capacity(4, 3, 3, 3);
    for (map, line) in lines {
        builder.try_add_sourcemap(map, Position::new(line, 0)).unwrap();
    }
    are_joined(builder.into_owned_sourcemap().as_source_map());
    are_joined(&SourceMap::join(lines.map(|(map, line)| (map, Position::new(line, 0)))).unwrap());
    let [first, second, third] = three();
    let mut builder = ConcatSourceMapBuilder::default();
    builder.add_sourcemap_owned(first.clone(), 0);
    builder.add_sourcemap_owned(second.clone(), 2);
    builder.add_sourcemap_owned(third.clone(), 2);
    are_joined(&builder.try_into_sourcemap().unwrap());
    let owned = vec![(first, 0), (second, 2), (third, 2)];
    are_joined(&ConcatSourceMapBuilder::from_owned_sourcemaps(owned).into_sourcemap());
}

#[test]
fn nothing_joined_is_the_empty_map() {
    let wanted = r#"{"version":3,"names":[],"sources":[],"mappings":""}"#;
    assert_eq!(ConcatSourceMapBuilder::from_sourcemaps(&[]).into_sourcemap().to_json_string(), wanted);
    assert_eq!(SourceMap::join([]).unwrap().to_json_string(), wanted);
}

#[test]
fn a_joined_map_owns_its_texts() {
    let joined = {
        let [first, second, _] = three();
        ConcatSourceMapBuilder::from_sourcemaps(&[(&first, 0), (&second, 5)]).into_owned_sourcemap()
    };
    assert_eq!((joined.get_name(2), joined.get_token(1).unwrap().get_dst_line()), (Some("bar"), 6));
}

#[test]
fn a_map_without_tokens_still_moves_the_ids_of_the_next() {
    let (bare, next) = (map_of(&["n"], &["a.js"], &[]), map_of(&["m"], &["b.js"], &[(0, 0, 0, 0, Some(0), Some(0))]));
    let map = ConcatSourceMapBuilder::from_owned_sourcemaps(vec![(bare, 0), (next, 0)]).into_sourcemap();
    assert_eq!(map.get_source_view_token(0).unwrap().to_tuple(), (Some("b.js"), 0, 0, Some("m")));
}

#[test]
fn each_content_stays_with_its_source() {
    let with = |contents: &[&'static str], source: &'static str| {
        SourceMap::from_parts(SourceMapParts {
            sources: vec![source.into()],
            source_contents: contents.iter().map(|content| Some((*content).into())).collect(),
            ..SourceMapParts::default()
        })
    };
    for (first, wanted) in [(&[][..], [None, Some("B")]), (&["A", "past"], [Some("A"), Some("B")])] {
        let (first, second) = (with(first, "a.js"), with(&["B"], "b.js"));
        let map = ConcatSourceMapBuilder::from_sourcemaps(&[(&first, 0), (&second, 1)]).into_sourcemap();
        assert_eq!(map.get_source_contents().collect::<Vec<_>>(), wanted);
    }
}

#[test]
fn a_token_that_repeats_the_last_one_at_a_seam_is_left_out() {
    let first = map_of(&[], &[], &[(0, 0, 0, 0, None, None), (2, 3, 0, 0, None, None)]);
    let second = map_of(&[], &[], &[(0, 3, 0, 0, None, None), (1, 9, 0, 0, None, None)]);
    let map = ConcatSourceMapBuilder::from_sourcemaps(&[(&first, 0), (&second, 2)]).into_sourcemap();
    let wanted = [(0, 0, 0, 0, None, None), (2, 3, 0, 0, None, None), (3, 9, 0, 0, None, None)].map(token);
    assert_eq!((map.tokens(), map.to_json().mappings.as_str()), (&wanted[..], "A;;G;S"));
}

#[test]
fn tokens_of_two_sources_at_one_position_both_stay() {
    let one = |source, name| map_of(&[name], &[source], &[(2, 5, 2, 5, Some(0), Some(0))]);
    let (first, second) = (one("1.js", "n1"), one("2.js", "n2"));
    let map = ConcatSourceMapBuilder::from_sourcemaps(&[(&first, 0), (&second, 0)]).into_sourcemap();
    assert_eq!(map.tokens().len(), 2);
}

#[test]
fn a_seam_after_an_unmapped_token_is_written_from_the_last_mapped_one() {
    let first = map_of(&[], &["a.js"], &[(0, 0, 5, 3, Some(0), None), (0, 4, 0, 0, None, None)]);
    let second = map_of(&[], &["b.js"], &[(0, 0, 7, 1, Some(0), None)]);
    let map = ConcatSourceMapBuilder::from_sourcemaps(&[(&first, 0), (&second, 1)]).into_sourcemap();
    assert_eq!(map.to_json().mappings, "AAKG,I;ACEF");
}

#[test]
fn a_map_may_begin_within_a_line() {
    let map = read(r#"{"version":3,"sources":["a.ts"],"ignoreList":[0],"mappings":"AAAA,CAAC;EAAA"}"#);
    let joined = SourceMap::join([(&map, Position::new(0, 0)), (&map, Position::new(1, 9))]).unwrap();
    assert_eq!(joined.to_json().mappings, "AAAA,CAAC;EAAA,OCAD,CAAC;EAAA");
    assert_eq!(joined.get_ignore_list(), Some(&[0, 1][..]));
}

#[test]
fn what_does_not_fit_is_refused_and_the_builder_stays() {
    let map = map_of(&["n"], &["a.js"], &[(1, 0, 0, 0, Some(0), None)]);
    let mut builder = ConcatSourceMapBuilder::default();
    builder.add_sourcemap(&map, 0);
    assert_eq!(builder.try_add_sourcemap(&map, Position::new(u32::MAX, 0)), Err(Error::TooLarge));
    let far = map_of(&[], &[], &[(0, 0, 0, 0, Some(u32::MAX - 1), None)]);
    assert_eq!(builder.try_add_sourcemap(&far, Position::default()), Err(Error::TooLarge));
    assert_eq!(SourceMap::join([(&map, Position::new(u32::MAX, 0))]).unwrap_err(), Error::TooLarge);
    assert_eq!(builder.into_sourcemap().to_json_string(), map.to_json_string());
}
