//! Times the calls of `oxc_sourcemap` on the source map that standard input has as JSON text, on the composition of several,
//! separated by lines `---`, the first nearest to the sources, and the remapping of the last, or on the maps of modules,
//! separated by lines `+++`. Prints a line of JSON for each stage: its name, the nanoseconds of the best run, and the number of
//! tokens of the map (of the last one, for a composition or remapping; of all, for modules). Without input it prints nothing. `tools/figures/bench/bench` runs it over files.
//!
//! Arguments STAGE RUNS run that stage alone, so many times, for who counts instructions.
#![tactic(auto)]

mod fault;
mod stages;
mod timing;

use crate::fault::Fault;
use crate::timing::Asked;
use std::env;
use std::io::Read;
use std::process::ExitCode;

/// The stage and the number of runs that the arguments ask for: without any, each stage, as often as time allows.
fn asked(rt: &HostRuntime) -> Result<Asked, Fault> {
    let mut arguments = env::args(rt)?.skip(1);
    let stage = arguments.next();
    let runs = arguments.next().and_then(|runs| runs.as_str().parse().ok());
    Ok(Asked { stage, runs })
}

fn bench(rt: &HostRuntime) -> Result<(), Fault> {
    let asked = asked(rt)?;
    let mut input = String::new(rt.alloc());
    rt.stdin().read_to_string(&mut input)?;
    let text = input.as_str();
    if text.is_empty() {
        Ok(())
    } else if text.contains(stages::STEP) {
        stages::time_pipeline(rt, &asked, text)
    } else if text.contains(stages::MODULE) {
        stages::time_modules(rt, &asked, text)
    } else {
        stages::time_map(rt, &asked, text)
    }
}

fn main(rt: HostRuntime) -> ExitCode {
    match bench(&rt) {
        Ok(()) => ExitCode::SUCCESS,
        Err(fault) => {
            let _ = eprintln!(rt; "bench: {fault}");
            ExitCode::FAILURE
        }
    }
}
