//! Tests of the library and of the commands of the program, by tables whose answers come from outside. `./check tests` runs
//! them. They are not proved: a proof of a test says no more than that the test itself is safe.
#![tactic(auto)]

mod accessors;
mod bench;
mod builder;
mod compiled;
mod composition;
mod differences;
// The examples of docstrings: `./check tests` writes this module.
mod examples;
mod found;
mod helpers;
mod hostile;
mod indexed;
mod joins;
mod lookups;
mod mappings;
mod maps;
mod owned;
mod pieces;
mod places;
mod plans;
mod program;
mod refusals;
mod remap;
mod reverse;
mod roots;
mod rows;
mod scopes;
mod shapes;
mod simplify;
mod sorting;
mod text_positions;
mod texts;
mod urls;
mod visualizer;
