//! The sums of units that are in memory, made by as many threads as take part.

use crate::manifest::Entry;
use std::sync::atomic::{AtomicUsize, Ordering};
use std::sync::OnceLock;

pub struct Sums<'a> {
    texts: &'a [&'a [u8]],
    /// The unit that is taken next.
    next: AtomicUsize,
    made: Vec<OnceLock<Entry>>,
}

impl<'a> Sums<'a> {
    pub fn of(texts: &'a [&'a [u8]]) -> Sums<'a> {
        Sums {
            texts,
            next: AtomicUsize::new(0),
            made: texts.iter().map(|_| OnceLock::new()).collect(),
        }
    }

    /// Makes sums until each unit was taken by this thread or another.
    pub fn make(&self) {
        loop {
            let unit = self.next.fetch_add(1, Ordering::Relaxed);
            let Some(text) = self.texts.get(unit) else {
                return;
            };
            self.made[unit].get_or_init(|| Entry::of(text));
        }
    }

    /// What the manifest says of each unit, once all threads have ended.
    pub fn entries(self) -> impl Iterator<Item = Entry> + use<'a> {
        let entry = |made: OnceLock<Entry>| made.into_inner().expect("each was taken");
        self.made.into_iter().map(entry)
    }
}
