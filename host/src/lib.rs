//! The program `recomp` around the proved library: arguments, files and the buffers that are lent.

pub mod args;
pub mod commands;
pub mod failure;
mod folder;
mod held;
mod help;
mod input;
mod lent;
pub mod library;
mod manifest;
mod names;
pub mod output;
mod pages;
mod progress;
mod promised;
mod reasons;
mod refusal;
mod room;
mod sha256;
mod summary;
mod sums;
mod threads;
mod totals;
mod units;
mod unprinted;
mod verify;
