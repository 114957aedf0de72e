//! Data URLs, and the URL that a code names for its map. tests/reference/mapping_urls.py has the numbers of the random codes.
use crate::helpers::same;
use oxc_sourcemap::{
    DataUrlError, Language, SourceMap, SourceMappingComment, decode_data_url, source_mapping_comment, source_mapping_url,
};
use std::alloc::{AllocError, Global};
use std::process::Abort;
use std::test::Fail;

fn has_url(rt: &impl Abort, code: &str, javascript: Option<&str>, css: Option<&str>) {
    same(rt, code, source_mapping_url(code, Language::JavaScript), javascript);
    same(rt, code, source_mapping_url(code, Language::Css), css);
}

/// A code, and the URL that it names as JavaScript and as CSS.
const CODES: &[(&str, Option<&str>, Option<&str>)] = &[
    ("", None, None),
    ("x\n//# sourceMappingURL=a.map", Some("a.map"), None),
    ("x\n//@ sourceMappingURL=a.map\n", Some("a.map"), None),
    ("x /*# sourceMappingURL=a.map */", Some("a.map"), Some("a.map")),
    ("x /*@ sourceMappingURL=a.map*/\r\n\t", Some("a.map"), Some("a.map")),
    // On one line with code, which may not follow.
    ("x//# sourceMappingURL=a.map", Some("a.map"), None),
    ("/*# sourceMappingURL=a.map */x", None, None),
    ("//# sourceMappingURL=a.map\nx", None, None),
    ("//# sourceMappingURL=a.map\n;", None, None),
    // The last counts; other comments and white space may follow.
    ("//# sourceMappingURL=a.map\n//# sourceMappingURL=b.map", Some("b.map"), None),
    ("/*# sourceMappingURL=a.map */ /*# sourceMappingURL=b.map */", Some("b.map"), Some("b.map")),
    ("/*# sourceMappingURL=a.map */\n /* note */ /**/\u{2028}\u{a0}", Some("a.map"), Some("a.map")),
    ("//# sourceMappingURL=a.map\r// note\n\n", Some("a.map"), None),
    ("//# sourceMappingURL=a.map\n/* two\nlines */", None, None),
    ("//# sourceMappingURL=a.map\n/* open", None, None),
    // A comment that may end a string, a template or another comment.
    ("`\n//# sourceMappingURL=a.map\n//`", None, None),
    ("/*\n//# sourceMappingURL=a.map\n// */", None, None),
    ("\"//# sourceMappingURL=a.map\"", None, None),
    ("//# sourceMappingURL=a.map\n// don't", None, None),
    ("//# sourceMappingURL=a.map\n/*\"*/", None, None),
    ("// it's\n//# sourceMappingURL=a.map", Some("a.map"), None),
    // White space, and what is none.
    ("//#sourceMappingURL=a.map", Some("a.map"), None),
    ("//#\t sourceMappingURL=a.map \u{2003}", Some("a.map"), None),
    ("// # sourceMappingURL=a.map", None, None),
    ("//# sourceMappingURL= a.map", None, None),
    ("//# sourceMappingURL=a b", None, None),
    ("//# sourceMappingURL=", Some(""), None),
    ("//# sourceMappingURL=a.map\n\u{feff}", None, None),
    ("//# sourceMappingURL=a.map\n\u{85}", Some("a.map"), None),
    ("//# sourcemappingurl=a.map", None, None),
    ("//# sourceMappingURL=é😀", Some("é😀"), None),
    // Each line end of JavaScript ends a comment.
    ("//# sourceMappingURL=a.map\rx", None, None),
    ("//# sourceMappingURL=a.map\u{2028}x", None, None),
    ("//# sourceMappingURL=a.map\u{2029}x", None, None),
    ("//\u{2029}# sourceMappingURL=a.map", None, None),
    // `//` inside of `/*`, and the other way round.
    ("/* // */ //# sourceMappingURL=a.map", Some("a.map"), None),
    ("// /*# sourceMappingURL=a.map */", None, Some("a.map")),
    ("/*/ # sourceMappingURL=a.map */", None, None),
    ("/", None, None),
    ("//# sourceMappingURL=a.map\n/", None, None),
];

#[test]
fn codes_name_urls(rt: HostRuntime) {
    for (code, javascript, css) in CODES {
        has_url(&rt, *code, *javascript, *css);
    }
}

const PIECES: [&str; 25] = [
    "//# sourceMappingURL=a.map", "//@ sourceMappingURL=b.map", "/*# sourceMappingURL=c.map */", "/* d */", "// e", "x", "/", "*",
    "'", "\n", "\r", "\r\n", "\u{2028}", " ", "\u{a0}", "\u{feff}", "/*", "*/", "//", "#", " sourceMappingURL=", "f g", "😀", "`", "\"",
];

/// What stands before the comment that names a URL, the comment, its URL, and what stands behind it.
type Cut = (&'static str, &'static str, &'static str, &'static str);

/// JavaScript, cut where its comment stands.
const CUTS: &[Cut] = &[
    ("x\n", "//# sourceMappingURL=a.map", "a.map", ""),
    ("x\n", "//# sourceMappingURL=a.map", "a.map", " \t\u{2003}\r\n\n"),
    ("x ", "/*@\tsourceMappingURL=a.map */", "a.map", " // end\n"),
    ("x", "//#sourceMappingURL=", "", "\u{2028}\u{a0}"),
    // The same words in a later comment, and in an earlier one that named the map before.
    ("x\n", "//# sourceMappingURL=a.map", "a.map", "\n// see sourceMappingURL=a.map\n"),
    ("x\n", "//# sourceMappingURL=a.map", "a.map", "\n// //# sourceMappingURL=a.map"),
    ("//# sourceMappingURL=a.map\n", "//# sourceMappingURL=a.map", "a.map", "\n"),
    ("/*# sourceMappingURL=a.map */ ", "/*# sourceMappingURL=a.map */", "a.map", "/* a.map */"),
    ("`é` // a\r", "/*# sourceMappingURL=//#sourceMappingURL=é😀*/", "//#sourceMappingURL=é😀", "\n"),
];

#[test]
fn codes_are_cut_at_the_comment(rt: HostRuntime) -> std::result::Result<(), Fail> {
    for (front, comment, url, back) in CUTS {
        let (front, comment, url, back) = (*front, *comment, *url, *back);
        let code = format!(in rt.alloc(); "{front}{comment}{back}")?;
        let wanted = SourceMappingComment { front, comment, url, back };
        same(&rt, code.as_str(), source_mapping_comment(code.as_str(), Language::JavaScript), Some(wanted));
    }
    same(&rt, "none", source_mapping_comment("x", Language::JavaScript).is_none(), true);
    same(&rt, "CSS", source_mapping_comment("//# sourceMappingURL=a.map", Language::Css).is_none(), true);
    Ok(())
}

/// The sum of the bytes of a URL, and 7 if there is none.
fn number_of(url: Option<&str>) -> u32 {
    let Some(url) = url else {
        return 7;
    };
    let mut sum: u32 = 0;
    for byte in url.bytes() {
        sum = sum.wrapping_add(u32::from(byte));
    }
    sum
}

/// What a code names once the comment is cut out of it that is found; a space keeps two ends of lines from being one.
fn named_without(alloc: Global, code: &str, language: Language) -> std::result::Result<bool, AllocError> {
    let Some(found) = source_mapping_comment(code, language) else {
        return Ok(true);
    };
    let between = if found.front.ends_with('\r') && found.back.starts_with('\n') { " " } else { "" };
    let left = format!(in alloc; "{}{between}{}", found.front, found.back)?;
    Ok(source_mapping_url(left.as_str(), language) == source_mapping_url(found.front, language))
}

/// How many of the random codes name a URL in this language, and a checksum of these. Behind each a comment is found that is put there,
/// and each names what is in front of its comment once that is cut out.
fn random_urls(rt: &impl Abort, alloc: Global, language: Language) -> std::result::Result<(u32, u32), Fail> {
    let (mut seed, mut named, mut sum) = (1u32, 0u32, 0u32);
    for _ in 0..20000 {
        let mut code = String::new(alloc);
        for _ in 0..12 {
            seed = seed.wrapping_mul(1103515245).wrapping_add(12345) % 2147483648;
            code.push_str(PIECES[((seed >> 16) % 25) as usize])?;
        }
        let url = source_mapping_url(code.as_str(), language);
        same(rt, code.as_str(), named_without(alloc, code.as_str(), language)?, true);
        let more = match language {
            Language::JavaScript => format!(in alloc; "{code}\n//# sourceMappingURL=z.map\n")?,
            Language::Css => format!(in alloc; "{code}\n/*# sourceMappingURL=z.map */\n")?,
        };
        same(rt, more.as_str(), source_mapping_url(more.as_str(), language), Some("z.map"));
        named += u32::from(url.is_some());
        sum = sum.wrapping_mul(31).wrapping_add(number_of(url));
    }
    Ok((named, sum))
}

#[test]
fn random_codes_name_urls(rt: HostRuntime) -> std::result::Result<(), Fail> {
    same(&rt, "JavaScript", random_urls(&rt, rt.alloc(), Language::JavaScript)?, (2090, 1728711765));
    same(&rt, "CSS", random_urls(&rt, rt.alloc(), Language::Css)?, (929, 3910259720));
    Ok(())
}

type Read = std::result::Result<Option<&'static str>, DataUrlError>;

/// A URL, and the text in it.
const URLS: &[(&str, Read)] = &[
    ("", Ok(None)),
    ("a.js.map", Ok(None)),
    ("https://x/data:application/json,{}", Ok(None)),
    ("data:application/json", Ok(None)),
    ("data:,{}", Ok(None)),
    ("data:text/plain,{}", Ok(None)),
    ("data:;base64,e30=", Ok(None)),
    ("data:application/jsonx,{}", Ok(None)),
    ("data:application/json,{}", Ok(Some("{}"))),
    ("DATA:Application/JSON;charset=UTF-8,{}", Ok(Some("{}"))),
    ("data:text/json;a=b;c,{},[]", Ok(Some("{},[]"))),
    ("data:application/json,%7B%22a%22:1%7d", Ok(Some("{\"a\":1}"))),
    ("data:application/json,100%", Ok(Some("100%"))),
    ("data:application/json,%zz%4", Ok(Some("%zz%4"))),
    ("data:application/json,{}#x", Ok(Some("{}"))),
    ("data:application/json#,{}", Ok(None)),
    ("data:application/json,", Ok(Some(""))),
    ("data:application/json;base64,e30=", Ok(Some("{}"))),
    ("data:application/json;base64,e30", Ok(Some("{}"))),
    ("data:application/json;charset=utf-8;base64,e30=", Ok(Some("{}"))),
    ("data:application/json;charset:utf-8;BASE64,e30%3D", Ok(Some("{}"))),
    ("data:application/json;base64;charset=utf-8,e30=", Ok(Some("e30="))),
    ("data:application/json;base64,", Ok(Some(""))),
    ("data:application/json;base64,e3*0", Err(DataUrlError::BadBase64(2))),
    ("data:application/json;base64,e30=#", Ok(Some("{}"))),
    ("data:application/json;base64,e", Err(DataUrlError::BadBase64(1))),
    ("data:application/json;base64,e31", Err(DataUrlError::BadBase64(2))),
    ("data:application/json;base64,%653*", Err(DataUrlError::BadBase64(2))),
    ("data:application/json;base64,Iv8i", Err(DataUrlError::BadUtf8(1))),
    ("data:application/json,ab%c3", Err(DataUrlError::BadUtf8(2))),
    ("data:application/json,%c3%a9é", Ok(Some("éé"))),
];

#[test]
fn data_urls_have_texts(rt: HostRuntime) {
    for (url, wanted) in URLS {
        match decode_data_url(rt.alloc(), *url) {
            Ok(text) => same(&rt, *url, Ok(text.as_ref().map(|text| text.as_str())), *wanted),
            Err(error) => same(&rt, *url, Err(error), *wanted),
        }
    }
}

#[test]
fn data_urls_are_read_back(rt: HostRuntime) -> std::result::Result<(), Fail> {
    let text = r#"{"version":3,"names":["é😀"],"sources":["a#%b.js"],"mappings":"AAAAA"}"#;
    let map = SourceMap::from_json_string(rt.alloc(), text)?;
    let url = map.to_data_url(rt.alloc())?;
    let read = decode_data_url(rt.alloc(), url.as_str()).ok().flatten();
    same(&rt, "text", read.as_ref().map(|text| text.as_str()), Some(text));
    Ok(())
}

#[test]
fn data_url_errors_are_texts(rt: HostRuntime) -> std::result::Result<(), Fail> {
    for (error, wanted) in [
        (DataUrlError::BadBase64(12), "The data URL has bad base64 at byte 12 of its data"),
        (DataUrlError::BadUtf8(0), "The data URL has bad UTF-8 at byte 0 of its text"),
        (DataUrlError::OutOfMemory, "Out of memory"),
    ] {
        let text = error.to_string(rt.alloc())?;
        same(&rt, wanted, text.as_str(), wanted);
    }
    Ok(())
}
