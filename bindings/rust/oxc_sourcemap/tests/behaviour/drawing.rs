//! A code beside its map: the visual text and the link.

use super::{Row, read, tokens};
use oxc_sourcemap::{Error, SourceMap, SourceMapParts, SourcemapVisualizer};

fn text_of(code: &str, contents: &[Option<&str>], rows: &[Row]) -> String {
    let map = SourceMap::from_parts(SourceMapParts {
        sources: vec!["a.js".into(), "b.js".into()],
        source_contents: contents.iter().map(|content| content.map(|text| text.to_string().into())).collect(),
        tokens: tokens(rows),
        ..SourceMapParts::default()
    });
    SourcemapVisualizer::new(code, &map).get_text()
}

const TWO_LINES: &[Row] = &[(0, 0, 0, 0, Some(0), None), (1, 0, 1, 0, Some(0), None)];

#[test]
fn parts_of_the_code_stand_beside_parts_of_its_sources() {
    let rows = [(0, 0, 0, 0, Some(0), None), (1, 1, 1, 0, Some(0), None)];
    let wanted = "- a.js\n(0:0) \"ab\\n\" --> (0:0) \"ab\\n\"\n(1:0) \"cd\" --> (1:1) \"d\"\n";
    assert_eq!(text_of("ab\ncd", &[Some("ab\ncd")], &rows), wanted);
}

#[test]
fn without_contents_nothing_is_drawn() {
    assert_eq!(text_of("a", &[], TWO_LINES), "[no source contents]\n");
}

#[test]
fn tokens_without_a_source_or_its_content_are_passed_over() {
    let rows = [
        (0, 0, 0, 0, None, None),
        (0, 1, 0, 0, Some(1), None),
        (0, 2, 0, 0, Some(0), None),
        (0, 3, 0, 0, Some(5), None),
    ];
    let text = text_of("hello\n", &[Some("hello\n"), None], &rows);
    assert_eq!(text, "- a.js\n(0:0) \"hello\\n\" --> (0:2) \"l\"\n");
    assert_eq!(text_of("aa\n", &[Some("aa\n")], &rows[3..]), "");
}

#[test]
fn every_line_end_ends_a_line() {
    assert_eq!(
        text_of("aa\r\nbb\r\n", &[Some("aa\r\nbb\r\n")], TWO_LINES),
        "- a.js\n(0:0) \"aa\\n\" --> (0:0) \"aa\\n\"\n(1:0) \"bb\\n\" --> (1:0) \"bb\\n\"\n"
    );
    for end in ['\u{2028}', '\u{2029}'] {
        let code = format!("é{end}😀");
        let line = format!("é{end}");
        let wanted = format!("- a.js\n(0:0) {line:?} --> (0:0) {line:?}\n(1:0) \"😀\" --> (1:0) \"😀\"\n");
        assert_eq!(text_of(&code, &[Some(&code)], TWO_LINES), wanted);
    }
}

#[test]
fn half_a_surrogate_pair_is_replaced() {
    let rows = [(0, 0, 0, 0, Some(0), None), (0, 1, 0, 1, Some(0), None)];
    let wanted = "- a.js\n(0:0) \"\u{fffd}\" --> (0:0) \"\u{fffd}\"\n(0:1) \"\u{fffd}x\" --> (0:1) \"\u{fffd}x\"\n";
    assert_eq!(text_of("😀x", &[Some("😀x")], &rows), wanted);
}

#[test]
fn positions_past_the_texts_are_marked() {
    let rows = [(0, 9, 0, 0, Some(0), None), (3, 0, 8, 1, Some(0), None)];
    let wanted = "- a.js\n(0:0) --> (0:9) [invalid]\n(8:1) [invalid] --> (3:0) [invalid]\n";
    assert_eq!(text_of("ab", &[Some("ab")], &rows), wanted);
}

#[test]
fn the_link_has_both_texts() {
    let map = read(r#"{"version":3,"sources":[],"names":[],"mappings":""}"#);
    // 1, a zero byte, `a`, 51, a zero byte, and the JSON text, in base64.
    let wanted = "https://evanw.github.io/source-map-visualization/#MQBhNTEAeyJ2ZXJzaW9uIjozLCJuYW1lcyI6W10sInNvdXJjZXMiOltdLCJtYXBwaW5ncyI6IiJ9";
    assert_eq!(SourcemapVisualizer::new("a", &map).get_url(), wanted);
}

#[test]
fn a_map_that_cannot_be_written_has_no_link() {
    let rows = [(1, 0, 0, 0, None, None), (0, 0, 0, 0, None, None)];
    let map = SourceMap::from_parts(SourceMapParts { tokens: tokens(&rows), ..SourceMapParts::default() });
    let visualizer = SourcemapVisualizer::new("", &map);
    assert_eq!((visualizer.try_get_url(), visualizer.try_get_text().is_ok()), (Err(Error::LineOrder(1)), true));
}
