//! Threads that do a part of the work beside this one, where there is memory for them.

use crate::lent::zeros;
use std::hint::black_box;
use std::thread::{self, Scope};

/// Bytes that must be free for a thread to be started. Its stack takes 2 MiB, and one that then
/// finds no memory for the little that it keeps besides ends the program or leaves it hanging.
const FREE: usize = 4 << 20;

/// Starts a thread, if there is one to be had; else this work is not done here.
pub fn start<'scope>(scope: &'scope Scope<'scope, '_>, work: impl FnOnce() + Send + 'scope) {
    // Seen through by the compiler, the memory would not be asked for and would count as had.
    if black_box(zeros::<u8>(FREE)).is_ok() {
        let _ = thread::Builder::new().spawn_scoped(scope, work);
    }
}
