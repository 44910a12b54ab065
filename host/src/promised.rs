//! Memory that the system has promised, and provides page by page as it is first written to. For a
//! text of many megabytes that takes a third of the time in which a call makes it, so another
//! thread asks for it meanwhile.

use std::ffi::{c_int, c_void};

/// No page is longer.
const PAGE: usize = 1 << 16;

/// Whole pages, by where they begin and how many bytes they have.
#[derive(Clone, Copy, Debug, PartialEq, Eq)]
pub struct Promised {
    from: usize,
    length: usize,
}

impl Promised {
    /// The whole pages of a text.
    pub fn of(text: &mut [u8]) -> Promised {
        let start = text.as_mut_ptr() as usize;
        let from = start.next_multiple_of(PAGE);
        let end = (start + text.len()) / PAGE * PAGE;
        Promised {
            from,
            length: end.saturating_sub(from),
        }
    }

    pub fn is_empty(self) -> bool {
        self.length == 0
    }

    /// Has the system provide it all, and changes no byte. Where that cannot be, nothing is lost.
    pub fn provide(self) {
        const WRITABLE: c_int = 23;
        if cfg!(target_os = "linux") {
            // SAFETY: the call reads and writes no byte, and provides pages of this program alone.
            unsafe { madvise(self.from as *mut c_void, self.length, WRITABLE) };
        }
    }
}

extern "C" {
    // Of the C library.
    fn madvise(from: *mut c_void, length: usize, advice: c_int) -> c_int;
}

#[cfg(test)]
mod tests {
    use super::*;

    #[test]
    fn whole_pages_within_the_text_and_no_byte_changed() {
        for length in [0, 1, PAGE, 2 * PAGE, 5 * PAGE + 1] {
            let mut text = vec![7; length];
            let start = text.as_ptr() as usize;
            let promised = Promised::of(&mut text);
            assert_eq!((promised.from % PAGE, promised.length % PAGE), (0, 0));
            assert!(promised.length + 2 * PAGE > length);
            if !promised.is_empty() {
                assert!(promised.from >= start);
                assert!(promised.from + promised.length <= start + length);
                promised.provide();
            }
            assert_eq!(text, vec![7; length]);
        }
    }
}
