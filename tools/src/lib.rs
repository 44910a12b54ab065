//! Block files in plain Rust: a builder, a check, exits, plan, listing, pages, sentences on shells
//! and the answers for units, a generator, damage and the stored vectors; the shells in a text;
//! what stores of several registers do; and what is read off the sources: the list of crates, the
//! definitions to be believed, and weakenings of them.

pub mod believed;
pub mod check;
pub mod damage;
pub mod file;
pub mod floors;
pub mod fronts;
pub mod generate;
pub mod lent;
pub mod listing;
pub mod misled;
pub mod model;
pub mod original;
pub mod pages;
pub mod reasons;
pub mod record;
pub mod rng;
pub mod samples;
pub mod shells;
pub mod stores;
pub mod timing;
pub mod trials;
pub mod units;
pub mod vectors;
pub mod weakenings;
