//! Hostile maps, remapped and as inputs.
use crate::helpers::{has_text, same};
use crate::hostile::maps::{Parts, map_of_parts};
use crate::rows::map_of;
use oxc_sourcemap::{Error, Result, SourceMap, Token};
use std::alloc::Global;

/// Names, sources and tokens of a map, and its ignore list.
type Ignoring = (Parts, Option<&'static [u32]>);

/// A map, the input for its source a.js, and the JSON text of the remapped map.
type Remapping = (Ignoring, Option<Ignoring>, Result<&'static str>);

const INPUT: Ignoring = ((&[], &["o.ts"], &[(0, 0, 7, 7, Some(0), None)]), None);

#[rattlefmt::skip]
const REMAPPINGS: &[Remapping] = &[
    // Ids of the map out of range.
    (((&["p"], &["a.js"], &[(0, 0, 0, 0, Some(5), Some(0)), (0, 2, 0, 0, Some(0), Some(9)), (0, 4, 1, 1, Some(4294967294), None), (0, 6, 0, 0, None, Some(9))]), None),
     Some(INPUT),
     Ok(r#"{"version":3,"names":[],"sources":["o.ts"],"mappings":"A,EAOO,E,E"}"#)),
    (((&["p"], &["a.js"], &[(0, 0, 3, 3, Some(5), Some(0)), (0, 2, 4, 4, Some(0), Some(9))]), None),
     None,
     Ok(r#"{"version":3,"names":[],"sources":["a.js"],"mappings":"A,EAII"}"#)),
    // Ids of the input out of range: a source id would be that of b.js, and the name of the map stands for a name.
    (((&["p"], &["a.js", "b.js"], &[(0, 0, 0, 0, Some(0), Some(0)), (0, 2, 0, 5, Some(0), Some(0)), (1, 0, 9, 9, Some(1), Some(0))]), None),
     Some(((&["q"], &["o.ts"], &[(0, 0, 1, 1, Some(1), Some(0)), (0, 5, 2, 2, Some(0), Some(3))]), None)),
     Ok(r#"{"version":3,"names":["p"],"sources":["o.ts","b.js"],"mappings":"A,EAEEA;ACOOA"}"#)),
    // Ignore lists out of range, and with repeats.
    (((&[], &["a.js", "b.js"], &[]), Some(&[7, 1, 1, 4294967295])),
     Some(((&[], &["x.ts", "y.ts"], &[]), Some(&[2, 0, 0, 99]))),
     Ok(r#"{"version":3,"names":[],"sources":["x.ts","y.ts","b.js"],"ignoreList":[0,2],"mappings":""}"#)),
    // Lines of the map go back: it is remapped, and not written.
    (((&[], &["a.js"], &[(1, 0, 0, 0, Some(0), None), (0, 0, 0, 0, Some(0), None)]), None),
     Some(INPUT),
     Err(Error::LineOrder(1))),
];

fn map_ignoring(alloc: Global, (parts, ignored): Ignoring) -> Result<SourceMap<'static>> {
    let mut map = map_of_parts(alloc, parts)?;
    if let Some(ids) = ignored {
        map.set_ignore_list(ids.to_vec(alloc)?);
    }
    Ok(map)
}

#[test]
fn maps_are_remapped(rt: HostRuntime) -> Result<()> {
    for (map, input, wanted) in REMAPPINGS {
        let map = map_ignoring(rt.alloc(), *map)?;
        match input {
            Some(input) => {
                let input = map_ignoring(rt.alloc(), *input)?;
                let remapped = map.remap(rt.alloc(), &[("a.js", &input)]);
                has_text(&rt, rt.alloc(), "with an input", &remapped, *wanted);
            }
            None => has_text(&rt, rt.alloc(), "without", &map.remap(rt.alloc(), &[]), *wanted),
        }
    }
    Ok(())
}

#[test]
fn a_token_lies_on_the_last_line(rt: HostRuntime) -> Result<()> {
    const MAX: u32 = 4294967295;
    let map = map_of(rt.alloc(), &[], &["a.js"], &[], &[(MAX, MAX, MAX, MAX, Some(0), None)])?;
    let input = map_of(rt.alloc(), &[], &["o.ts"], &[], &[(MAX, 0, MAX, MAX, Some(0), None)])?;
    let remapped = map.remap(rt.alloc(), &[("a.js", &input)])?;
    same(&rt, "token", remapped.get_token(0), Some(Token::new(MAX, MAX, MAX, MAX, Some(0), None)));
    Ok(())
}

/// Columns of the input go back: it is open which token of the line is found, and that there is one.
#[test]
fn columns_that_go_back_lead_to_some_token(rt: HostRuntime) -> Result<()> {
    for column in 0..9 {
        let map = map_of(rt.alloc(), &[], &["a.js"], &[], &[(0, 0, 0, column, Some(0), None)])?;
        let rows = [(0, 6, 1, 1, Some(0), None), (0, 2, 2, 2, Some(0), None), (0, 4, 3, 3, Some(0), None)];
        let input = map_of(rt.alloc(), &[], &["o.ts"], &[], rows.as_slice())?;
        let token = map.remap(rt.alloc(), &[("a.js", &input)])?.get_token(0).expect(&rt, "a token");
        assert!(rt; token.get_source_id() == Some(0) && token.get_src_line() == token.get_src_col());
        assert!(rt; 1 <= token.get_src_line() && token.get_src_line() <= 3);
    }
    Ok(())
}
