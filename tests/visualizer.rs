//! A map beside its strings: the visual text, and the link to the page that draws it.
use crate::helpers::is_text;
use crate::rows::{Row, map_of};
use oxc_sourcemap::{Error, Result, SourcemapVisualizer};
use std::alloc::Global;

/// A code, which is the content of the source `a.js` too, tokens, and the visual text.
type Text = (&'static str, &'static [Row], &'static str);

const TEXTS: &[Text] = &[
    (
        "ab\ncd",
        &[(0, 0, 0, 0, Some(0), None), (1, 1, 1, 0, Some(0), None)],
        "- a.js\n(0:0) \"ab\\n\" --> (0:0) \"ab\\n\"\n(1:0) \"cd\" --> (1:1) \"d\"\n",
    ),
    (
        "aa\r\nbb",
        &[(0, 0, 0, 0, Some(0), None), (1, 0, 1, 0, Some(0), None)],
        "- a.js\n(0:0) \"aa\\n\" --> (0:0) \"aa\\n\"\n(1:0) \"bb\" --> (1:0) \"bb\"\n",
    ),
    // A column inside a surrogate pair.
    (
        "😀x",
        &[(0, 0, 0, 0, Some(0), None), (0, 1, 0, 1, Some(0), None)],
        "- a.js\n(0:0) \"�\" --> (0:0) \"�\"\n(0:1) \"�x\" --> (0:1) \"�x\"\n",
    ),
    // U+2028 ends a line.
    (
        "é\u{2028}😀",
        &[(0, 0, 0, 0, Some(0), None), (1, 0, 1, 0, Some(0), None)],
        "- a.js\n(0:0) \"é\\u{2028}\" --> (0:0) \"é\\u{2028}\"\n(1:0) \"😀\" --> (1:0) \"😀\"\n",
    ),
    // So does U+2029.
    (
        "a\u{2029}b",
        &[(0, 0, 0, 0, Some(0), None), (1, 0, 1, 0, Some(0), None)],
        "- a.js\n(0:0) \"a\\u{2029}\" --> (0:0) \"a\\u{2029}\"\n(1:0) \"b\" --> (1:0) \"b\"\n",
    ),
    // A carriage return alone ends a line, and is left out; the last line is empty.
    (
        "a\rb\n",
        &[
            (0, 0, 0, 0, Some(0), None),
            (1, 0, 1, 0, Some(0), None),
            (2, 0, 0, 0, Some(0), None),
        ],
        "- a.js\n(0:0) \"a\" --> (0:0) \"a\"\n(1:0) \"b\\n\" --> (1:0) \"b\\n\"\n(0:0) --> (2:0) [invalid]\n",
    ),
    // The source end is that of a later token; columns go back; a source past the end; no source.
    (
        "abcdef",
        &[
            (0, 4, 0, 2, Some(0), None),
            (0, 1, 0, 2, Some(0), None),
            (0, 1, 0, 5, Some(0), None),
            (0, 2, 0, 0, Some(5), None),
            (0, 3, 0, 0, None, None),
            (0, 5, 0, 1, Some(0), None),
        ],
        "- a.js\n(0:2) \"cde\" --> (0:4) \"bcd\"\n(0:2) \"cde\" --> (0:1) \"\"\n(0:5) \"f\" --> (0:1) \"b\"\n(0:1) \"bcdef\" --> (0:5) \"f\"\n",
    ),
];

/// The text that shows the code and a map beside each other.
fn shown_text(
    alloc: Global,
    code: &str,
    sources: &[&'static str],
    contents: &[Option<&'static str>],
    rows: &[Row],
) -> Result<String> {
    let map = map_of(alloc, &[], sources, contents, rows)?;
    SourcemapVisualizer::new(code, &map).get_text(alloc)
}

#[test]
fn texts_show_what_is_tied_together(rt: HostRuntime) {
    for (code, rows, wanted) in TEXTS {
        let shown = shown_text(rt.alloc(), code, &["a.js"], &[Some(*code)], rows);
        is_text(&rt, code, &shown, Ok(*wanted));
    }
}

/// A code, sources, contents and tokens of a map, and the visual text.
type Shown = (
    &'static str,
    &'static [&'static str],
    &'static [Option<&'static str>],
    &'static [Row],
    &'static str,
);

/// Positions that are not there are marked, and sources without content print nothing.
const SHOWN: &[Shown] = &[
    (
        "ab",
        &["a.js"],
        &[Some("x")],
        &[(0, 0, 0, 9, Some(0), None), (3, 0, 0, 0, Some(0), None)],
        "- a.js\n(0:9) [invalid] --> (0:0)\n(0:0) --> (3:0) [invalid]\n",
    ),
    ("x", &["a.js"], &[], &[], "[no source contents]\n"),
    (
        "hello\n",
        &["a.js", "b.js"],
        &[],
        &[(0, 0, 0, 0, Some(1), None), (0, 2, 0, 1, Some(0), None)],
        "[no source contents]\n",
    ),
    (
        "hello\n",
        &["a.js", "b.js"],
        &[Some("hello\n"), None],
        &[(0, 0, 0, 0, Some(1), None), (0, 2, 0, 1, Some(0), None)],
        "- a.js\n(0:1) \"ello\\n\" --> (0:2) \"llo\\n\"\n",
    ),
];

#[test]
fn what_is_not_there_is_marked_or_left_out(rt: HostRuntime) {
    for (code, sources, contents, rows, wanted) in SHOWN {
        let shown = shown_text(rt.alloc(), code, sources, contents, rows);
        is_text(&rt, code, &shown, Ok(*wanted));
    }
}

/// The link of a code and a map.
fn link(alloc: Global, code: &str, rows: &[Row]) -> Result<String> {
    let map = map_of(alloc, &[], &[], &[], rows)?;
    SourcemapVisualizer::new(code, &map).get_url(alloc)
}

/// A code, the tokens of a map, and the link that holds both, or why there is none.
const LINKS: &[(&str, &[Row], Result<&str>)] = &[
    (
        "a",
        &[],
        Ok(
            "https://evanw.github.io/source-map-visualization/#MQBhNTEAeyJ2ZXJzaW9uIjozLCJuYW1lcyI6W10sInNvdXJjZXMiOltdLCJtYXBwaW5ncyI6IiJ9",
        ),
    ),
    (
        "",
        &[(1, 0, 0, 0, None, None), (0, 0, 0, 0, None, None)],
        Err(Error::LineOrder(1)),
    ),
];

#[test]
fn the_link_holds_the_code_and_the_map(rt: HostRuntime) {
    for (code, rows, wanted) in LINKS {
        is_text(&rt, "link", &link(rt.alloc(), code, rows), *wanted);
    }
}
