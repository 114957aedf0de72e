//! Mappings alone, the map that a code names, and data URLs.

use oxc_sourcemap_sys as sys;

use crate::SourceMap;
use crate::error::{Fault, Result};
use crate::raw::{done, lent, made, made_text, no_text};
use crate::sourcemap::raw_tokens;
use crate::token::Token;

/// The version of the interface of the library that is linked.
pub fn library_version() -> u32 {
    // SAFETY: the call takes nothing.
    unsafe { sys::smap_version() }
}

/// The mappings of tokens. Fails with `LineOrder` if they go back in lines, with `TooLarge`, or with `OutOfMemory`.
///
/// ```
/// use oxc_sourcemap::{encode_mappings, Error, Token};
/// let token = |line, col| Token::new(line, col, 0, 0, Some(0), None);
/// assert_eq!(encode_mappings(&[token(0, 0), token(1, 4)])?, "AAAA;IAAA");
/// assert_eq!(encode_mappings(&[token(1, 4), token(0, 0)]), Err(Error::LineOrder(1)));
/// # Ok::<(), oxc_sourcemap::Error>(())
/// ```
pub fn encode_mappings(tokens: &[Token]) -> Result<String> {
    // SAFETY: pointer and length are those of a live list, tokens have the layout of the library's, and the outputs are ours.
    Ok(made_text(|out, fault| unsafe { sys::smap_encode_mappings(raw_tokens(tokens), tokens.len(), out, fault) })?)
}

/// The mappings of tokens, if they have at most `limit` bytes. Fails as [`encode_mappings`] does, and then with `TooLarge`.
///
/// ```
/// use oxc_sourcemap::{encode_mappings_within, Error, Token};
/// let tokens = [Token::new(2, 0, 5, 3, Some(0), None)];
/// assert_eq!(encode_mappings_within(&tokens, 6)?, ";;AAKG");
/// assert_eq!(encode_mappings_within(&tokens, 5), Err(Error::TooLarge));
/// # Ok::<(), oxc_sourcemap::Error>(())
/// ```
pub fn encode_mappings_within(tokens: &[Token], limit: usize) -> Result<String> {
    // SAFETY: pointer and length are those of a live list, tokens have the layout of the library's, and the outputs are ours.
    Ok(made_text(|out, fault| unsafe {
        sys::smap_encode_mappings_within(raw_tokens(tokens), tokens.len(), limit, out, fault)
    })?)
}

/// The tokens of mappings, whose ids have to be below these numbers of names and sources. Fails with the first fault of the mappings.
///
/// ```
/// use oxc_sourcemap::{decode_mappings, Error, Token};
/// assert_eq!(*decode_mappings("E;GAAC", 0, 1)?, [Token::new(0, 2, 0, 0, None, None), Token::new(1, 3, 0, 1, Some(0), None)]);
/// assert_eq!(decode_mappings("E;GAAC", 0, 0).unwrap_err().error(), Error::BadSourceReference(0));
/// # Ok::<(), oxc_sourcemap::Fault>(())
/// ```
pub fn decode_mappings(mappings: &str, names: usize, sources: usize) -> Result<Box<[Token]>, Fault> {
    // SAFETY: pointer and length are those of a live text, and the outputs are ours.
    let map = made(|out, fault| unsafe {
        sys::smap_decode_mappings(mappings.as_ptr().cast(), mappings.len(), names, sources, out, fault)
    })?;
    Ok(SourceMap::of(map).into_parts().tokens)
}

/// The languages of codes.
#[derive(Clone, Copy, Debug, Default, PartialEq, Eq, Hash)]
pub enum Language {
    /// JavaScript, with comments `//` and `/* */`.
    #[default]
    JavaScript,
    /// CSS, with comments `/* */`.
    Css,
}

/// The URL of the map in the code's last sourceMappingURL comment.
///
/// ```
/// use oxc_sourcemap::{source_mapping_url, Language};
/// assert_eq!(source_mapping_url("f()\n//# sourceMappingURL=a.js.map\n", Language::JavaScript), Some("a.js.map"));
/// assert_eq!(source_mapping_url("a{}\n//# sourceMappingURL=a.css.map\n", Language::Css), None);
/// ```
pub fn source_mapping_url(code: &str, language: Language) -> Option<&str> {
    let language = match language {
        Language::JavaScript => sys::SMAP_JAVASCRIPT,
        Language::Css => sys::SMAP_CSS,
    };
    let mut url = no_text();
    // SAFETY: pointer and length are those of a live text, and the outputs are ours.
    done(|fault| unsafe { sys::smap_source_mapping_url(code.as_ptr().cast(), code.len(), language, &mut url, fault) })
        .ok()?;
    // SAFETY: the URL is a part of the code.
    Some(unsafe { lent(url) })
}

/// The text in a data URL of JSON, base64 or percent-encoded; none if it is no data URL of JSON. Fails with `BadBase64`,
/// `BadDataUtf8` or `OutOfMemory`.
///
/// ```
/// use oxc_sourcemap::{decode_data_url, Error, SourceMap};
/// let url = SourceMap::default().to_data_url();
/// assert_eq!(decode_data_url(&url)?.unwrap(), SourceMap::default().to_json_string());
/// assert_eq!(decode_data_url("https://example.org/a.js.map")?, None);
/// assert_eq!(decode_data_url("data:application/json;base64,e30!"), Err(Error::BadBase64(3)));
/// # Ok::<(), oxc_sourcemap::Error>(())
/// ```
pub fn decode_data_url(url: &str) -> Result<Option<String>> {
    // SAFETY: pointer and length are those of a live text, and the outputs are ours.
    let text = made_text(|out, fault| unsafe { sys::smap_decode_data_url(url.as_ptr().cast(), url.len(), out, fault) });
    match text {
        Ok(text) => Ok(Some(text)),
        Err(told) if told.0.code == sys::SMAP_NO_ENTRY => Ok(None),
        Err(told) => Err(told.into()),
    }
}
