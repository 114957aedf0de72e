//! The stages of the program of `tools/figures/bench/bench`, on small maps. (`./check tests` puts the program's modules beside this file.)
mod fault;
mod stages;
mod timing;

use self::fault::Fault;
use self::timing::Asked;

/// All stages are asked for, each once.
const EACH: Asked = Asked { stage: None, runs: Some(1) };

#[test]
fn the_stages_of_a_map_are_timed(rt: HostRuntime) -> Result<(), Fault> {
    stages::time_map(
        &rt,
        &EACH,
        r#"{"version":3,"sources":["a.js"],"names":["x"],"mappings":"AAAA,GAAIA"}"#,
    )
}

#[test]
fn a_composition_and_its_remapping_are_timed(rt: HostRuntime) -> Result<(), Fault> {
    stages::time_pipeline(
        &rt,
        &EACH,
        "{\"version\":3,\"names\":[],\"sources\":[\"o.ts\"],\"mappings\":\"AACA\"}\n---\n{\"version\":3,\"names\":[],\"sources\":[\"m.js\"],\"mappings\":\"AAAA\"}",
    )
}

/// The last map has two sources.
#[test]
fn a_remapping_is_timed(rt: HostRuntime) -> Result<(), Fault> {
    stages::time_pipeline(
        &rt,
        &EACH,
        "{\"version\":3,\"sources\":[\"a.ts\"],\"mappings\":\"AACA\"}\n---\n{\"version\":3,\"sources\":[\"b.ts\"],\"mappings\":\"AACA\"}\n---\n{\"version\":3,\"sources\":[\"a.js\",\"b.js\"],\"mappings\":\"AAAA;ACAA\"}",
    )
}

#[test]
fn modules_are_timed(rt: HostRuntime) -> Result<(), Fault> {
    stages::time_modules(
        &rt,
        &EACH,
        "{\"version\":3,\"sources\":[\"a.js\"],\"mappings\":\"AAAA\"}\n+++\n{\"version\":3,\"sources\":[\"b.js\"],\"mappings\":\"AACA\"}",
    )
}
