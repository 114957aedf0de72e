//! Source roots, put before sources.
use crate::helpers::{has_text, same};
use crate::rows::map_of;
use oxc_sourcemap::{ConcatSourceMapBuilder, OwnedSourceMap, Result, SourceMap};

/// The JSON texts of maps, before and after.
#[rattlefmt::skip]
const ROOTS: &[(&str, &str)] = &[
    // A root without a `/` at its end, and one with it.
    (r#"{"version":3,"sourceRoot":"pkg/a/src","names":[],"sources":["index.ts","lib/a.ts"],"mappings":"AAAA"}"#,
     r#"{"version":3,"names":[],"sources":["pkg/a/src/index.ts","pkg/a/src/lib/a.ts"],"mappings":"AAAA"}"#),
    (r#"{"version":3,"sourceRoot":"pkg/b/src/","names":[],"sources":["index.ts"],"mappings":"AAAA"}"#,
     r#"{"version":3,"names":[],"sources":["pkg/b/src/index.ts"],"mappings":"AAAA"}"#),
    // An empty root, and no root.
    (r#"{"version":3,"sourceRoot":"","names":[],"sources":["a.js",""],"mappings":"AAAA"}"#,
     r#"{"version":3,"names":[],"sources":["a.js",""],"mappings":"AAAA"}"#),
    (r#"{"version":3,"names":[],"sources":["a.js","/b.js"],"mappings":"AAAA"}"#,
     r#"{"version":3,"names":[],"sources":["a.js","/b.js"],"mappings":"AAAA"}"#),
    // The root `/`, a root that is a URL, and one that begins or ends in several.
    (r#"{"version":3,"sourceRoot":"/","names":[],"sources":["a.js"],"mappings":"AAAA"}"#,
     r#"{"version":3,"names":[],"sources":["/a.js"],"mappings":"AAAA"}"#),
    (r#"{"version":3,"sourceRoot":"https://example.com/x","names":[],"sources":["a.js","./b.js","../c.js"],"mappings":"AAAA"}"#,
     r#"{"version":3,"names":[],"sources":["https://example.com/x/a.js","https://example.com/x/./b.js","https://example.com/x/../c.js"],"mappings":"AAAA"}"#),
    (r#"{"version":3,"sourceRoot":"//x//","names":[],"sources":["a.js"],"mappings":"AAAA"}"#,
     r#"{"version":3,"names":[],"sources":["//x//a.js"],"mappings":"AAAA"}"#),
    // Sources that begin with `/`, and sources with a scheme, stay.
    (r#"{"version":3,"sourceRoot":"root","names":[],"sources":["/a.js","//host/a.js","/","http://x/a.js","webpack:///a.js","C:/a.js","a+b-c.1:x","Z:"],"mappings":"AAAA"}"#,
     r#"{"version":3,"names":[],"sources":["/a.js","//host/a.js","/","http://x/a.js","webpack:///a.js","C:/a.js","a+b-c.1:x","Z:"],"mappings":"AAAA"}"#),
    // A colon, or what stands before it, that makes no scheme.
    (r#"{"version":3,"sourceRoot":"root","names":[],"sources":[":a.js","1a:b.js","a b:c.js","a/b:c.js","+a:b","a_b:c","","é:a","."],"mappings":"AAAA"}"#,
     r#"{"version":3,"names":[],"sources":["root/:a.js","root/1a:b.js","root/a b:c.js","root/a/b:c.js","root/+a:b","root/a_b:c","root/","root/é:a","root/."],"mappings":"AAAA"}"#),
    // No sources.
    (r#"{"version":3,"sourceRoot":"root","names":[],"sources":[],"mappings":""}"#,
     r#"{"version":3,"names":[],"sources":[],"mappings":""}"#),
    // A source that is the root.
    (r#"{"version":3,"sourceRoot":"root","names":[],"sources":["root","root/a.js"],"mappings":"AAAA"}"#,
     r#"{"version":3,"names":[],"sources":["root/root","root/root/a.js"],"mappings":"AAAA"}"#),
];

#[test]
fn a_root_is_put_before_sources(rt: HostRuntime) -> Result<()> {
    for (text, wanted) in ROOTS {
        let mut map = SourceMap::from_json_string(rt.alloc(), text)?;
        map.apply_source_root(rt.alloc())?;
        has_text(&rt, rt.alloc(), "once", &Ok(map.clone(rt.alloc())?), Ok(wanted));
        map.apply_source_root(rt.alloc())?;
        has_text(&rt, rt.alloc(), "twice", &Ok(map), Ok(wanted));
        let mut map = OwnedSourceMap::from_json_string(rt.alloc(), text)?;
        map.apply_source_root(rt.alloc())?;
        has_text(&rt, rt.alloc(), "owned", &Ok(map.into_inner()), Ok(wanted));
    }
    Ok(())
}

/// Sources and contents that are borrowed, and ids out of range: sources alone change.
#[test]
fn all_else_stays(rt: HostRuntime) -> Result<()> {
    let row = (3, 4, 5, 6, Some(7), Some(8));
    let parts = map_of(rt.alloc(), &["n"], &["a.js", "/b.js"], &[None, Some("B")], &[row])?;
    let mut parts = parts.into_parts();
    parts.source_root = Some(std::borrow::CowStr::Borrowed("root"));
    parts.ignore_list = Some(vec![in rt.alloc(); 9u32]?);
    let mut map = SourceMap::from_parts(parts);
    let token = map.get_token(0);
    map.apply_source_root(rt.alloc())?;
    same(&rt, "sources", [map.get_source(0), map.get_source(1)], [Some("root/a.js"), Some("/b.js")]);
    same(&rt, "root", map.get_source_root(), None);
    same(&rt, "name", map.get_name(0), Some("n"));
    same(&rt, "contents", [map.get_source_content(0), map.get_source_content(1)], [None, Some("B")]);
    same(&rt, "token", map.get_token(0), token);
    same(&rt, "ignore list", map.get_ignore_list(), Some([9u32].as_slice()));
    Ok(())
}

/// Two packages with a source of the same name. Their join tells them apart if roots are applied before.
#[test]
fn roots_are_kept_by_joins_if_applied_before(rt: HostRuntime) -> Result<()> {
    let mut builder = ConcatSourceMapBuilder::empty(rt.alloc());
    for (line, text) in [
        r#"{"version":3,"sourceRoot":"pkg/a/src","sources":["index.ts"],"mappings":"AAAA"}"#,
        r#"{"version":3,"sourceRoot":"pkg/b/src","sources":["index.ts"],"mappings":"AAAA"}"#,
    ].iter().enumerate() {
        let mut map = SourceMap::from_json_string(rt.alloc(), text)?;
        map.apply_source_root(rt.alloc())?;
        builder.add_sourcemap_owned(map, line as u32)?;
    }
    let joined = builder.into_sourcemap();
    has_text(&rt, rt.alloc(), "joined", &joined, Ok(r#"{"version":3,"names":[],"sources":["pkg/a/src/index.ts","pkg/b/src/index.ts"],"mappings":"AAAA;ACAA"}"#));
    Ok(())
}
