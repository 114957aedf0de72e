//! Hostile texts, maps, readers and writers: whatever comes in, the answer is right or a named error.
mod built;
mod calls;
mod compositions;
mod joins;
mod lists;
mod lookups;
mod maps;
mod owned;
mod places;
mod remaps;
mod runs;
mod streams;
mod texts;
