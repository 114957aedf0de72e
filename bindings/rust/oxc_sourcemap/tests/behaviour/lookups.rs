//! Lookups: by tables, of generated positions, of ranges, of original positions, and differences.

use super::{Row, json, map_of, read, token, tokens};
use oxc_sourcemap::{Bias, Direction, Error, Found, Original, Piece, Position, SourceMap, Traced};

const COOL: &str = r#"{"version":3,"sources":["coolstuff.js"],"names":["x","alert"],"mappings":"AAAA,GAAIA,GAAI,EACR,IAAIA,GAAK,EAAG,CACVC,MAAM"}"#;

/// Tokens at columns 2, 7 (five) and 9 of line 1, and one on line 3.
const ROWS: &[Row] = &[
    (1, 2, 9, 9, Some(0), None),
    (1, 7, 1, 0, Some(0), None),
    (1, 7, 2, 0, Some(0), None),
    (1, 7, 3, 0, Some(0), None),
    (1, 9, 4, 0, None, None),
    (3, 5, 5, 1, Some(1), Some(0)),
];

/// For a position the index of the token that answers by each bias.
const ANSWERS: &[(u32, u32, [Option<u32>; 3])] = &[
    (0, 0, [None, None, None]),
    (1, 0, [None, Some(0), Some(0)]),
    (1, 2, [Some(0), Some(0), Some(0)]),
    (1, 3, [Some(0), Some(0), Some(1)]),
    (1, 7, [Some(1), Some(1), Some(3)]),
    (1, 8, [Some(3), Some(3), Some(4)]),
    (1, 9, [Some(4), Some(4), Some(4)]),
    (1, u32::MAX, [Some(4), Some(4), None]),
    (2, 9, [None, None, None]),
    (3, 4, [None, Some(5), Some(5)]),
    (3, 6, [Some(5), Some(5), None]),
    (4, 0, [None, None, None]),
    (u32::MAX, 0, [None, None, None]),
];

const BIASES: [Bias; 3] = [Bias::Before, Bias::Clamped, Bias::After];

fn rows() -> SourceMap<'static> {
    map_of(&["n"], &["a.ts", "b.ts"], ROWS)
}

fn positions() -> Vec<Position> {
    ANSWERS.iter().map(|(line, column, _)| Position::new(*line, *column)).collect()
}

#[test]
fn lines_go_on_to_infinity() {
    let map = read(COOL);
    let table = map.generate_lookup_table();
    let tuple = |line, col| map.lookup_source_view_token(&table, line, col).map(|it| it.to_tuple());
    let source = Some("coolstuff.js");
    assert_eq!(tuple(0, 0), Some((source, 0, 0, None)));
    assert_eq!(tuple(0, 3), Some((source, 0, 4, Some("x"))));
    assert_eq!(tuple(0, 24), Some((source, 2, 8, None)));
    assert_eq!(tuple(0, 1000), Some((source, 2, 8, None)));
    assert_eq!(tuple(1000, 0), None);
}

#[test]
fn tables_have_a_line_for_each_up_to_the_last_token() {
    let map = rows();
    let table = map.generate_lookup_table();
    assert_eq!(table.iter().map(|line| line.len()).collect::<Vec<_>>(), [0, 5, 0, 1]);
    assert_eq!((table[1], table[3]), (&map.tokens()[..5], &map.tokens()[5..]));
}

#[test]
fn every_lookup_finds_the_same_token() {
    let (map, other) = (rows(), SourceMap::default());
    let table = map.generate_lookup_table();
    for (nth, bias) in BIASES.into_iter().enumerate() {
        let found = map.find_all(&positions(), bias).unwrap();
        let traced = map.trace_all(&positions(), bias).unwrap();
        for (at, (line, col, answers)) in ANSWERS.iter().enumerate() {
            let (wanted, place) = (answers[nth], format!("{line}:{col} {bias:?}"));
            assert_eq!(found[at], wanted, "{place}");
            assert_eq!(traced[at], map.trace(*line, *col, bias).unwrap(), "{place}");
            assert_eq!(index_of(traced[at]), wanted, "{place}");
            let token = wanted.map(|index| token(ROWS[index as usize]));
            match bias {
                Bias::Before => assert_eq!(map.lookup_token(&table, *line, *col), token, "{place}"),
                Bias::Clamped => assert_eq!(map.lookup_token_approx(&table, *line, *col), token, "{place}"),
                Bias::After => {}
            }
            // A table is read whatever map is asked.
            match bias {
                Bias::Before => assert_eq!(other.lookup_token(&table, *line, *col), token, "{place}"),
                Bias::Clamped => assert_eq!(other.lookup_token_approx(&table, *line, *col), token, "{place}"),
                Bias::After => {}
            }
        }
    }
}

fn index_of(traced: Traced<'_>) -> Option<u32> {
    match traced {
        Traced::Nothing => None,
        Traced::Unmapped(found) => Some(found.index),
        Traced::Mapped(original) => Some(original.index),
    }
}

#[test]
fn an_answer_has_the_token_its_index_and_its_texts() {
    let map = rows();
    let named = Original { index: 5, token: token(ROWS[5]), source: "b.ts", name: Some("n") };
    assert_eq!(map.trace(3, 6, Bias::Before), Ok(Traced::Mapped(named)));
    assert_eq!((named.line(), named.column()), (5, 1));
    let plain = Original { index: 0, token: token(ROWS[0]), source: "a.ts", name: None };
    assert_eq!(map.trace(1, 3, Bias::Before).unwrap().original(), Some(plain));
    let unmapped = Traced::Unmapped(Found { index: 4, token: token(ROWS[4]) });
    assert_eq!((map.trace(1, 10, Bias::Before), unmapped.original()), (Ok(unmapped), None));
    assert_eq!(map.trace(0, 0, Bias::Before), Ok(Traced::Nothing));
    // An id that is out of range counts as none.
    let loose = map_of(&[], &["a.ts"], &[(0, 0, 0, 0, Some(7), None), (0, 1, 0, 0, Some(0), Some(7))]);
    assert!(matches!(loose.trace(0, 0, Bias::Before), Ok(Traced::Unmapped(found)) if found.index == 0));
    assert_eq!(loose.trace(0, 1, Bias::Before).unwrap().original().unwrap().name, None);
}

#[test]
fn the_views_of_lookups_are_of_this_map() {
    let map = rows();
    let table = map.generate_lookup_table();
    assert_eq!(map.lookup_source_view_token(&table, 3, 9).unwrap().to_tuple(), (Some("b.ts"), 5, 1, Some("n")));
    assert!(map.lookup_source_view_token(&table, 3, 0).is_none());
    assert_eq!(map.lookup_source_view_token_approx(&table, 3, 0).unwrap().get_name(), Some("n"));
}

#[test]
fn lines_that_go_back_are_told() {
    let back = map_of(&[], &["a.ts"], &[(1, 0, 0, 0, Some(0), None), (0, 0, 0, 0, Some(0), None)]);
    assert_eq!(back.trace(0, 0, Bias::Before).unwrap_err(), Error::LineOrder(1));
    assert_eq!(back.trace_all(&[], Bias::Before).unwrap_err(), Error::LineOrder(1));
    assert_eq!(back.find_all(&[], Bias::After).unwrap_err(), Error::LineOrder(1));
    assert_eq!(back.try_generate_lookup_table().unwrap_err(), Error::LineOrder(1));
}

#[test]
#[should_panic(expected = "Token 1 lies on a line before")]
fn a_table_of_lines_that_go_back_panics() {
    map_of(&[], &[], &[(1, 0, 0, 0, None, None), (0, 0, 0, 0, None, None)]).generate_lookup_table();
}

#[test]
fn a_list_of_another_length_is_refused() {
    let mut out = [7; 2];
    assert_eq!(rows().find_all_into(&[Position::default()], Bias::Before, &mut out), Err(Error::Lengths));
    assert_eq!(out, [7, 7]);
    rows().find_all_into(&[Position::new(1, 7), Position::new(0, 0)], Bias::Before, &mut out).unwrap();
    assert_eq!(out, [1, u32::MAX]);
}

#[test]
fn pieces_cover_a_range() {
    let piece = |begin: (u32, u32), end: (u32, u32), index| Piece { begin: begin.into(), end: end.into(), index };
    let wanted = [
        piece((0, 3), (1, 2), None),
        piece((1, 2), (1, 7), Some(0)),
        piece((1, 7), (1, 8), Some(1)),
        piece((1, 8), (1, 9), Some(3)),
        piece((1, 9), (2, 0), Some(4)),
        piece((2, 0), (3, 4), None),
    ];
    assert_eq!(rows().pieces(Position::new(0, 3), Position::new(3, 4)), wanted);
    assert_eq!(rows().pieces(Position::new(1, 4), Position::new(1, 4)), []);
    assert_eq!(rows().pieces(Position::new(2, 0), Position::new(1, 9)), []);
}

#[test]
fn maps_differ_by_texts() {
    let map = rows();
    assert_eq!(map.first_difference(&map), None);
    let renamed = map_of(&["m"], &["a.ts", "b.ts"], ROWS);
    assert_eq!(map.first_difference(&renamed), Some(Position::new(3, 5)));
    let swapped: Vec<Row> =
        ROWS.iter().map(|&(a, b, c, d, source, name)| (a, b, c, d, source.map(|id| 1 - id), name)).collect();
    assert_eq!(map.first_difference(&map_of(&["n"], &["b.ts", "a.ts"], &swapped)), None);
}

#[test]
fn original_positions_are_found_in_both_directions() {
    let rows = [
        (0, 0, 4, 2, Some(0), None),
        (0, 5, 4, 6, Some(0), None),
        (1, 0, 4, 2, Some(0), None),
        (1, 8, 4, 6, Some(0), None),
        (2, 0, 4, 2, Some(1), None),
    ];
    let mut map = map_of(&[], &["a.ts", "b.ts"], &rows);
    assert_eq!(map.generated(0, 4, 2, Direction::At), Err(Error::NoIndex));
    assert_eq!(map.all_generated(0, 4, 2, Direction::At), Err(Error::NoIndex));
    map.index_sources().unwrap();
    let answers = [
        ((0, 4, 2), Direction::At, vec![0, 2]),
        ((0, 4, 3), Direction::At, vec![]),
        ((0, 4, 5), Direction::For, vec![0, 2]),
        ((0, 4, 9), Direction::For, vec![1, 3]),
        ((0, 4, 1), Direction::For, vec![]),
        ((0, 4, 3), Direction::From, vec![1, 3]),
        ((0, 4, 7), Direction::From, vec![]),
        ((0, 4, 99), Direction::OnLine, vec![0, 1, 2, 3]),
        ((1, 4, 2), Direction::At, vec![4]),
        ((0, 3, 2), Direction::OnLine, vec![]),
        ((7, 4, 2), Direction::At, vec![]),
    ];
    for ((source, line, column), direction, wanted) in answers {
        let place = format!("{source}:{line}:{column} {direction:?}");
        let first = wanted.first().map(|&index| Found { index, token: token(rows[index as usize]) });
        assert_eq!(map.all_generated(source, line, column, direction), Ok(wanted), "{place}");
        assert_eq!(map.generated(source, line, column, direction), Ok(first), "{place}");
    }
    map.sort().unwrap();
    assert_eq!(map.generated(0, 4, 2, Direction::At), Err(Error::NoIndex));
}

#[test]
fn simplifying_changes_no_answer() {
    let text = json(r#""names":["idle","n"],"sources":["idle.ts","a.ts"],"mappings":"ACAAC,CAAA,EAAA,EACA,C,C""#);
    let (map, mut simple) = (read(&text), read(&text));
    simple.simplify().unwrap();
    assert_eq!(map.first_difference(&simple), None);
    assert!(simple.counts().tokens < map.counts().tokens && simple.get_sources().eq(["a.ts"]));
    let mut back = map_of(&[], &[], &[(0, 1, 0, 0, None, None), (0, 0, 0, 0, None, None)]);
    assert_eq!(back.simplify(), Err(Error::Unsorted));
    assert_eq!(back.tokens(), &*tokens(&[(0, 1, 0, 0, None, None), (0, 0, 0, 0, None, None)]));
}
