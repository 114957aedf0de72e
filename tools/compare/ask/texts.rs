//! Requests about a text.
use crate::cut;
use crate::fault::Fault;
use crate::found::answer_found;
use crate::maps::numbers_of;
use oxc_sourcemap::TextPositions;
use serde_json::Value;

fn answer(rt: &HostRuntime, positions: &TextPositions<'_>, request: &str) -> Result<(), Fault> {
    let numbers = numbers_of(rt.alloc(), request)?;
    match numbers.as_slice() {
        [Some(offset)] => match positions.position(*offset) {
            Ok((line, col)) => println!(rt; "{line} {col}")?,
            Err(error) => println!(rt; "{error:?}")?,
        },
        [Some(line), Some(col)] => match positions.offset(*line, *col) {
            Ok(offset) => println!(rt; "{offset}")?,
            Err(error) => println!(rt; "{error:?}")?,
        },
        _ => return Err(Fault::Request),
    }
    Ok(())
}

/// Answers requests about the text that a JSON string says.
pub(crate) fn answer_text(rt: &HostRuntime, string: &str, requests: &[&str]) -> Result<(), Fault> {
    let value = Value::from_str(rt.alloc(), string).map_err(oxc_sourcemap::Error::from)?;
    let Some(text) = value.as_str() else {
        return Err(Fault::Request);
    };
    let positions = TextPositions::new(rt.alloc(), text)?;
    for request in requests {
        match cut(*request) {
            ("found", wanted) => answer_found(rt, text, wanted)?,
            _ => answer(rt, &positions, *request)?,
        }
    }
    Ok(())
}
