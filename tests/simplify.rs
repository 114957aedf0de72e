//! Maps that are simplified: rows by `tests/reference/simplified.py --rows`, which finds the answers by traces.
use crate::helpers::{has_text, same};
use crate::rows::map_of;
use oxc_sourcemap::{Error, OwnedSourceMap, PlanError, Result, SourceMap, TokenChunk};

/// JSON texts of maps, and of the same, simplified.
#[rattlefmt::skip]
const ROWS: &[(&str, &str)] = &[
    // Nothing to drop.
    (r#"{"version":3,"names":["x"],"sources":["a"],"mappings":"AAAAA,IAAA;A"}"#,
     r#"{"version":3,"names":["x"],"sources":["a"],"mappings":"AAAAA,IAAA;A"}"#),
    // Tokens that point where the one before points, on two lines.
    (r#"{"version":3,"names":[],"sources":["a"],"mappings":"AAAA,EAAA,GAAA,CACA;AAAA,GAAA"}"#,
     r#"{"version":3,"names":[],"sources":["a"],"mappings":"AAAA,MACA;AAAA"}"#),
    // Unmapped tokens repeat one another, but not the start of a line.
    (r#"{"version":3,"names":[],"sources":["a"],"mappings":"A,C,CAAA;G,C"}"#,
     r#"{"version":3,"names":[],"sources":["a"],"mappings":"A,EAAA;G"}"#),
    // Of three at one position the middle one is never found.
    (r#"{"version":3,"names":[],"sources":["a"],"mappings":"GAAA,AAKA,AAHA,MAFA"}"#,
     r#"{"version":3,"names":[],"sources":["a"],"mappings":"GAAA,AAEA,MAFA"}"#),
    // The last of two at one position is not found either if the next column has a token.
    (r#"{"version":3,"names":[],"sources":["a"],"mappings":"GAAA,AAKA,CACA"}"#,
     r#"{"version":3,"names":[],"sources":["a"],"mappings":"GAAA,CAMA"}"#),
    // The first of two at one position repeats: the second one moves.
    (r#"{"version":3,"names":[],"sources":["a"],"mappings":"AAAA,GAAA,AAOA,KAPA"}"#,
     r#"{"version":3,"names":[],"sources":["a"],"mappings":"AAAA,IAOA,IAPA"}"#),
    // The second of two at one position points where the one before both points.
    (r#"{"version":3,"names":[],"sources":["a"],"mappings":"AACC,GADD,AACC"}"#,
     r#"{"version":3,"names":[],"sources":["a"],"mappings":"AACC,GADD,AACC"}"#),
    // Equal names become one, and others go.
    (r#"{"version":3,"names":["u","x","y","x"],"sources":["a"],"mappings":"AAAAE,EAAAC,EAAAF,EAAA,E"}"#,
     r#"{"version":3,"names":["y","x"],"sources":["a"],"mappings":"AAAAA,EAAAC,IAAA,E"}"#),
    // Equal sources become one if their contents are equal.
    (r#"{"version":3,"names":[],"sources":["b","a","a","a","c"],"sourcesContent":[null,"x","y","x","z"],"mappings":"AGAA,EFAA,ECAA,EFAA"}"#,
     r#"{"version":3,"names":[],"sources":["a","a","b"],"sourcesContent":["x","y",null],"mappings":"AAAA,ICAA,ECAA"}"#),
    // An ignored source and an equal one that is not stay two, this one first.
    (r#"{"version":3,"names":[],"sources":["b","a","a"],"sourcesContent":["z","x","x"],"ignoreList":[1,0],"mappings":"ACAA,ECGA,EFHA"}"#,
     r#"{"version":3,"names":[],"sources":["a","a","b"],"sourcesContent":["x","x","z"],"ignoreList":[1,2],"mappings":"ACAA,EDGA,EEHA"}"#),
    // Equal sources, one of them ignored, trace alike.
    (r#"{"version":3,"names":[],"sources":["a","a"],"ignoreList":[0],"mappings":"AAAA,ECAA"}"#,
     r#"{"version":3,"names":[],"sources":["a","a"],"ignoreList":[1],"mappings":"ACAA"}"#),
    // No ignored source is left.
    (r#"{"version":3,"names":[],"sources":["a","b"],"sourcesContent":["x",null],"ignoreList":[1],"mappings":"AAAA"}"#,
     r#"{"version":3,"names":[],"sources":["a"],"sourcesContent":["x"],"mappings":"AAAA"}"#),
    // A source of which only a dropped token knew.
    (r#"{"version":3,"names":["q"],"sources":["a","b"],"mappings":"GAAA,ACAAA,ADEA;AAFA"}"#,
     r#"{"version":3,"names":[],"sources":["a"],"mappings":"GAAA,AAEA;AAFA"}"#),
    // Names, sources and tokens at once.
    (r#"{"version":3,"names":["u","x","x"],"sources":["b","a","a"],"sourcesContent":["z","x","x"],"ignoreList":[1,0],"mappings":"ACAAE,EAAAD,ACGAA,G"}"#,
     r#"{"version":3,"names":["x"],"sources":["a","a"],"sourcesContent":["x","x"],"ignoreList":[1],"mappings":"ACAAA,GDGAA,E"}"#),
    // Nothing at all.
    (r#"{"version":3,"names":["x"],"sources":["a"],"sourcesContent":["y"],"ignoreList":[0],"mappings":""}"#,
     r#"{"version":3,"names":[],"sources":[],"mappings":""}"#),
    // Random map 0.
    (r#"{"version":3,"names":["q","q","q"],"sources":["b","a","b"],"sourcesContent":["y",null,null],"ignoreList":[1],"mappings":";A,IECC;E,GDAD"}"#,
     r#"{"version":3,"names":[],"sources":["b","a"],"ignoreList":[1],"mappings":";A,IACC;E,GCAD"}"#),
    // Random map 1.
    (r#"{"version":3,"names":["p","q"],"sources":["a"],"sourcesContent":["x","y","x"],"mappings":"G,E;CACC,G;AAAAA,C,C"}"#,
     r#"{"version":3,"names":["p"],"sources":["a"],"sourcesContent":["x"],"mappings":"G;CACC,G;AAAAA,C"}"#),
    // Random map 2.
    (r#"{"version":3,"names":[],"sources":[],"ignoreList":[],"mappings":";;K,A"}"#,
     r#"{"version":3,"names":[],"sources":[],"mappings":";;K"}"#),
    // Random map 3.
    (r#"{"version":3,"names":["q","p"],"sources":["a"],"sourcesContent":[null,"x","x","y"],"ignoreList":[0],"mappings":"E,A;;AAAC,C,C,E,C"}"#,
     r#"{"version":3,"names":[],"sources":["a"],"ignoreList":[0],"mappings":"E;;AAAC,C"}"#),
    // Random map 4.
    (r#"{"version":3,"names":[],"sources":["b"],"sourcesContent":["x",null,null],"ignoreList":[],"mappings":"CACC,CADA;AACA,E,A;E,A,GADA"}"#,
     r#"{"version":3,"names":[],"sources":["b"],"sourcesContent":["x"],"mappings":"CACC,CADA;AACA,E;E,GADA"}"#),
    // Random map 5.
    (r#"{"version":3,"names":["p","p","p"],"sources":["b","a"],"ignoreList":[],"mappings":"CAAAC,C,EAAAC;CAAAF,ACAAA,C;AACAC,IDDA"}"#,
     r#"{"version":3,"names":["p"],"sources":["b","a"],"mappings":"CAAAA,C,EAAAA;CAAAA,C;ACCAA,IDDA"}"#),
    // Random map 6.
    (r#"{"version":3,"names":["q","p","p"],"sources":[],"sourcesContent":["y"],"ignoreList":[],"mappings":"E,G,A,A;;E,G,A"}"#,
     r#"{"version":3,"names":[],"sources":[],"mappings":"E;;E"}"#),
    // Random map 7.
    (r#"{"version":3,"names":[],"sources":["a","b"],"ignoreList":[1],"mappings":""}"#,
     r#"{"version":3,"names":[],"sources":[],"mappings":""}"#),
    // Random map 8.
    (r#"{"version":3,"names":["p","p","p"],"sources":["b"],"ignoreList":[0],"mappings":"AACCE;GAADA,E"}"#,
     r#"{"version":3,"names":["p"],"sources":["b"],"ignoreList":[0],"mappings":"AACCA;GAADA,E"}"#),
    // Random map 9.
    (r#"{"version":3,"names":["p"],"sources":["b","b","a"],"sourcesContent":["y","x",null],"ignoreList":[1],"mappings":""}"#,
     r#"{"version":3,"names":[],"sources":[],"mappings":""}"#),
    // Random map 10.
    (r#"{"version":3,"names":["q","p","p"],"sources":[],"sourcesContent":["x","x","y"],"mappings":""}"#,
     r#"{"version":3,"names":[],"sources":[],"mappings":""}"#),
    // Random map 11.
    (r#"{"version":3,"names":["q"],"sources":["b","b","a"],"sourcesContent":[null,null,"x","x"],"ignoreList":[0],"mappings":""}"#,
     r#"{"version":3,"names":[],"sources":[],"mappings":""}"#),
    // Random map 12.
    (r#"{"version":3,"names":["p","q","q"],"sources":["b","b","a"],"sourcesContent":["y","x",null],"ignoreList":[],"mappings":"A,ECCA,CADCA,CCAAE,CFAAD;AEAA,KACDA;C,E"}"#,
     r#"{"version":3,"names":["p","q"],"sources":["b","a","b"],"sourcesContent":["x",null,"y"],"mappings":"A,EACA,CADCA,CCAAC,CCAAA;ADAA,KACDA;C"}"#),
    // Random map 13.
    (r#"{"version":3,"names":["p"],"sources":["b","a"],"sourcesContent":["y",null],"ignoreList":[1],"mappings":";KAACA;ACADA,E"}"#,
     r#"{"version":3,"names":["p"],"sources":["b","a"],"sourcesContent":["y",null],"ignoreList":[1],"mappings":";KAACA;ACADA,E"}"#),
    // Random map 14.
    (r#"{"version":3,"names":["q"],"sources":[],"sourcesContent":["x","y"],"mappings":"E,A,G,A;G,C;I"}"#,
     r#"{"version":3,"names":[],"sources":[],"mappings":"E;G;I"}"#),
    // Random map 15.
    (r#"{"version":3,"names":[],"sources":["a"],"ignoreList":[0],"mappings":";;EAAC,AACA"}"#,
     r#"{"version":3,"names":[],"sources":["a"],"ignoreList":[0],"mappings":";;EAAC,AACA"}"#),
    // Random map 16.
    (r#"{"version":3,"names":["q","p"],"sources":["b","b"],"sourcesContent":[null,"x","y"],"mappings":""}"#,
     r#"{"version":3,"names":[],"sources":[],"mappings":""}"#),
    // Random map 17.
    (r#"{"version":3,"names":["q"],"sources":["b","b","b"],"ignoreList":[],"mappings":"CECA;KDAC;ADAD,EEDA"}"#,
     r#"{"version":3,"names":[],"sources":["b"],"mappings":"CACA;KAAC;AAAD,EADA"}"#),
    // Random map 18.
    (r#"{"version":3,"names":["q","p","p"],"sources":["a"],"sourcesContent":["y","x",null],"ignoreList":[],"mappings":"CACAE,C,GAAAD;C"}"#,
     r#"{"version":3,"names":["p"],"sources":["a"],"sourcesContent":["y"],"mappings":"CACAA,C,GAAAA;C"}"#),
    // Random map 19.
    (r#"{"version":3,"names":[],"sources":[],"sourcesContent":[null,"x","x","y"],"ignoreList":[],"mappings":"A,G,C,A;E;A,G,C,A"}"#,
     r#"{"version":3,"names":[],"sources":[],"mappings":"A;E;A"}"#),
    // Random map 20.
    (r#"{"version":3,"names":[],"sources":["b"],"sourcesContent":["y",null],"ignoreList":[],"mappings":"CACC"}"#,
     r#"{"version":3,"names":[],"sources":["b"],"sourcesContent":["y"],"mappings":"CACC"}"#),
    // Random map 21.
    (r#"{"version":3,"names":["q","q","p"],"sources":["b"],"sourcesContent":["y",null,"y"],"mappings":""}"#,
     r#"{"version":3,"names":[],"sources":[],"mappings":""}"#),
    // Random map 22.
    (r#"{"version":3,"names":[],"sources":["a"],"sourcesContent":["x",null,"y",null],"ignoreList":[],"mappings":"E"}"#,
     r#"{"version":3,"names":[],"sources":[],"mappings":"E"}"#),
    // Random map 23.
    (r#"{"version":3,"names":["q","q"],"sources":["a","a"],"sourcesContent":["x",null,"y",null],"ignoreList":[0,1],"mappings":"A,ACCAA;;ADDC,ECCAC,EDDD,C,AAAAA"}"#,
     r#"{"version":3,"names":["q"],"sources":["a","a"],"sourcesContent":[null,"x"],"ignoreList":[0,1],"mappings":"A,AACAA;;ACDC,EDCAA,ECDD,C,AAAAA"}"#),
    // Random map 24.
    (r#"{"version":3,"names":["p"],"sources":["a","a","a"],"ignoreList":[],"mappings":""}"#,
     r#"{"version":3,"names":[],"sources":[],"mappings":""}"#),
    // Random map 25.
    (r#"{"version":3,"names":["p","q","p"],"sources":["a","a","b"],"sourcesContent":["y","x",null],"ignoreList":[0],"mappings":";CCCA,GDDCE;ICAA"}"#,
     r#"{"version":3,"names":["p"],"sources":["a","a"],"sourcesContent":["x","y"],"ignoreList":[1],"mappings":";CACA,GCDCA;IDAA"}"#),
    // Random map 26.
    (r#"{"version":3,"names":["p","p","q"],"sources":["a"],"ignoreList":[],"mappings":"AAAA,I,C;GAAA,CACCE;AADDF,C,E"}"#,
     r#"{"version":3,"names":["q","p"],"sources":["a"],"mappings":"AAAA,I;GAAA,CACCA;AADDC,C"}"#),
    // Random map 27.
    (r#"{"version":3,"names":[],"sources":["b","b","a"],"ignoreList":[],"mappings":"C;K"}"#,
     r#"{"version":3,"names":[],"sources":[],"mappings":"C;K"}"#),
    // Random map 28.
    (r#"{"version":3,"names":["p"],"sources":[],"ignoreList":[],"mappings":"A,A,C,G;A,C;E"}"#,
     r#"{"version":3,"names":[],"sources":[],"mappings":"A;A;E"}"#),
    // Random map 29.
    (r#"{"version":3,"names":["q","p"],"sources":[],"sourcesContent":["x","x","x",null],"mappings":";K"}"#,
     r#"{"version":3,"names":[],"sources":[],"mappings":";K"}"#),
];

/// What a call that may fail as plans do gave, or that it lacked memory.
fn done(made: std::result::Result<(), PlanError>) -> Result<()> {
    made.map_err(|_| Error::OutOfMemory)
}

#[test]
fn a_map_is_simplified(rt: HostRuntime) -> Result<()> {
    for (text, wanted) in ROWS {
        let mut map = SourceMap::from_json_string(rt.alloc(), text)?;
        done(map.simplify(rt.alloc()))?;
        has_text(&rt, rt.alloc(), "simplified", &Ok(map), Ok(wanted));
        let mut map = OwnedSourceMap::from_json_string(rt.alloc(), text)?;
        done(map.simplify(rt.alloc()))?;
        has_text(&rt, rt.alloc(), "owned", &Ok(map.into_inner()), Ok(wanted));
        let mut map = SourceMap::from_json_string(rt.alloc(), wanted)?;
        done(map.simplify(rt.alloc()))?;
        has_text(&rt, rt.alloc(), "again", &Ok(map), Ok(wanted));
    }
    Ok(())
}

/// A token whose source id is out of range becomes unmapped, and a name id out of range goes. No JSON text has such ids.
#[test]
fn ids_out_of_range_are_none(rt: HostRuntime) -> Result<()> {
    let alloc = rt.alloc();
    let rows = [(0, 0, 4, 4, Some(5), Some(0)), (0, 1, 0, 0, Some(0), Some(3)), (0, 2, 0, 0, Some(0), None)];
    let mut map = map_of(alloc, &["x"], &["a"], &[], &rows)?;
    done(map.simplify(alloc))?;
    let wanted = r#"{"version":3,"names":[],"sources":["a"],"mappings":"A,CAAA"}"#;
    has_text(&rt, alloc, "out of range", &Ok(map), Ok(wanted));
    Ok(())
}

/// File, source root and debug id stay, and chunks go.
#[test]
fn the_rest_of_a_map_stays(rt: HostRuntime) -> Result<()> {
    let alloc = rt.alloc();
    let text = r#"{"version":3,"file":"f","sourceRoot":"r","names":[],"sources":["a"],"mappings":"AAAA","debugId":"d"}"#;
    let mut parts = SourceMap::from_json_string(alloc, text)?.into_parts();
    parts.token_chunks = Some(vec![in alloc; TokenChunk::new(0, 1, 0, 0, 0, 0, 0, 0)]?);
    let mut map = SourceMap::from_parts(parts);
    done(map.simplify(alloc))?;
    has_text(&rt, alloc, "the rest", &map.clone(alloc), Ok(text));
    same(&rt, "chunks", map.into_parts().token_chunks.is_some(), false);
    Ok(())
}

/// Each fails, and stays as it was.
#[test]
fn errors_leave_a_map_as_it_was(rt: HostRuntime) -> Result<()> {
    let alloc = rt.alloc();
    let back = [(0, 5, 0, 0, Some(0), None), (0, 2, 0, 0, Some(0), None)];
    let far = [(0, 0, 0, 0, Some(0), None), (0, 4294967295, 0, 0, Some(0), None), (0, 4294967295, 1, 0, Some(0), None)];
    let rows: [(&[_], _); 2] = [(&back, PlanError::Unsorted), (&far, PlanError::Map(Error::TooLarge))];
    for (tokens, wanted) in rows {
        let mut map = map_of(alloc, &["x"], &["a", "b"], &[Some("y")], tokens)?;
        same(&rt, "error", map.simplify(alloc), Err(wanted));
        same(&rt, "tokens", map.get_tokens().len(), tokens.len());
        same(&rt, "name", map.get_name(0), Some("x"));
        same(&rt, "source", map.get_source(1), Some("b"));
        same(&rt, "content", map.get_source_content(0), Some("y"));
    }
    Ok(())
}
