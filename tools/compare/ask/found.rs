//! Reading a text as a map as it is found.
use crate::fault::Fault;
use oxc_sourcemap::read_found;
use std::alloc::Global;

/// The JSON text of the map that is found in a text, and what was mended, with tabs between, or the error.
fn answer(alloc: Global, text: &str) -> Result<String, Fault> {
    let found = match read_found(alloc, text) {
        Ok(found) => found,
        Err(error) => return Ok(format!(in alloc; "error: {error}")?),
    };
    let mut out = found.map.to_json_string(alloc)?;
    for mend in &found.mends {
        write!(&mut out, "\t{mend}")?;
    }
    Ok(out)
}

/// Prints `=` if this is the wanted answer, else the answer: all answers would be more than a run may write.
pub(crate) fn answer_found(rt: &HostRuntime, text: &str, wanted: &str) -> Result<(), Fault> {
    let found = answer(rt.alloc(), text)?;
    let shown = if found.as_str() == wanted { "=" } else { found.as_str() };
    println!(rt; "{shown}")?;
    Ok(())
}
