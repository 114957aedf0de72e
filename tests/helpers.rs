//! Assertions of the tests.
use oxc_sourcemap::{Result, SourceMap, SourceViewToken, Token};
use std::alloc::Global;
use std::fmt::Debug;
use std::process::Abort;

/// Asserts that two values are equal. Where they are not, the message tells `what` was looked at.
pub fn same<T: Copy + Debug + PartialEq>(rt: &impl Abort, what: &str, found: T, wanted: T) {
    assert_eq!(rt; found, wanted, "{what}");
}

/// Asserts what a text is, or why there is none.
pub fn is_text(rt: &impl Abort, what: &str, found: &Result<String>, wanted: Result<&str>) {
    same(rt, what, lent(found), wanted);
}

/// Asserts the JSON text of a map that a call gave, or why it gave none or none is written.
pub fn has_text(
    rt: &impl Abort,
    alloc: Global,
    what: &str,
    found: &Result<SourceMap<'_>>,
    wanted: Result<&str>,
) {
    match found {
        Ok(map) => is_text(rt, what, &map.to_json_string(alloc), wanted),
        Err(error) => same(rt, what, Err(*error), wanted),
    }
}

/// Asserts what the mappings text of a map is, or why the map is not written.
pub fn is_written_as(rt: &impl Abort, alloc: Global, map: &SourceMap<'_>, wanted: Result<&str>) {
    match &map.to_json(alloc) {
        Ok(json) => same(rt, "mappings", Ok(json.mappings.as_str()), wanted),
        Err(error) => same(rt, "mappings", Err(*error), wanted),
    }
}

/// A token, without a source position if it is unmapped.
fn bare(token: Token) -> Token {
    if token.get_source_id().is_some() {
        token
    } else {
        Token::new(token.get_dst_line(), token.get_dst_col(), 0, 0, None, None)
    }
}

/// Asserts that the tokens of a map are those that a JSON text reads as, the unmapped ones without a source position.
pub fn has_tokens_of(
    rt: &impl Abort,
    alloc: Global,
    map: &SourceMap<'_>,
    text: &str,
) -> Result<()> {
    let read = SourceMap::from_json_string(alloc, text)?;
    same(rt, text, map.get_tokens().len(), read.get_tokens().len());
    for (found, wanted) in map.get_tokens().zip(read.get_tokens()) {
        same(rt, text, found, bare(wanted));
    }
    Ok(())
}

/// A text, borrowed.
pub fn lent(text: &Result<String>) -> Result<&str> {
    match text {
        Ok(text) => Ok(text.as_str()),
        Err(error) => Err(*error),
    }
}

/// Asserts that an iterator gives these items, tells at each step how many are left, and ends.
pub fn gives<T, I>(rt: &impl Abort, what: &str, mut found: I, wanted: &[T])
where
    T: Copy + Debug + PartialEq,
    I: ExactSizeIterator<Item = T> + Drop,
{
    let mut left = wanted.len();
    for item in wanted {
        same(rt, what, found.len(), left);
        same(rt, what, found.next(), Some(*item));
        left -= 1;
    }
    same(rt, what, (found.len(), found.next()), (0, None));
    same(rt, what, (found.len(), found.next()), (0, None));
}

/// What a view shows: its token, the name, source and content that the ids of it name, and the source with its content.
pub type Seen<'t> = (Token, [Option<&'t str>; 3], Option<(&'t str, &'t str)>);

pub fn seen<'t>(view: SourceViewToken<'t, '_>) -> Seen<'t> {
    let token = Token::new(
        view.get_dst_line(),
        view.get_dst_col(),
        view.get_src_line(),
        view.get_src_col(),
        view.get_source_id(),
        view.get_name_id(),
    );
    let texts = [
        view.get_name(),
        view.get_source(),
        view.get_source_content(),
    ];
    (token, texts, view.get_source_and_content())
}
