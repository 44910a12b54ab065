//! The plan on pages: how many there are, one of them, and all of them, as many a call as what is
//! lent holds.

use crate::lent::{zeros, Lent, NoResult};
use crate::library;

/// Blocks that make a page; the last has those that are left.
const BLOCKS: u64 = 60;

/// Bytes of a line with its end. A page has one for its number and one for each of its blocks.
const LINE: u64 = 65;

/// How many pages so many blocks have.
pub fn count(blocks: u64) -> u64 {
    blocks.div_ceil(BLOCKS)
}

/// The text of page `page`, from 1.
pub fn page(lent: &mut Lent, page: u64) -> Result<Vec<u8>, NoResult> {
    let mut text = zeros((LINE * (1 + BLOCKS)) as usize)?;
    let length = library::page(lent.file, page, &mut lent.work, &mut text);
    text.truncate(length.map_err(NoResult::Refused)? as usize);
    Ok(text)
}

pub struct Pages<'a> {
    lent: Lent<'a>,
    text: Vec<u8>,
    /// The first page that was not handed out.
    next: u64,
}

impl<'a> Pages<'a> {
    /// Makes room for the texts of all pages together, so that one call gives them all.
    pub fn new(lent: Lent<'a>) -> Result<Pages<'a>, NoResult> {
        let blocks = lent.counts.blocks;
        let lines = count(blocks) + blocks;
        Ok(Pages {
            lent,
            text: zeros((LINE * lines) as usize)?,
            next: 1,
        })
    }

    /// The texts of the next pages, as many as one call gives; nothing after the last.
    pub fn hand_out(&mut self) -> Result<Option<&[u8]>, NoResult> {
        if self.next > count(self.lent.counts.blocks) {
            return Ok(None);
        }
        let (file, work) = (self.lent.file, &mut self.lent.work);
        let made = library::pages(file, self.next, work, &mut self.text);
        let made = made.map_err(NoResult::Refused)?;
        self.next += made.count;
        Ok(Some(&self.text[..made.length as usize]))
    }
}

#[cfg(test)]
mod tests {
    use super::*;
    use crate::library::Refused;
    use recomp_tools::generate::{self, Params};

    /// A file with so many blocks.
    fn file(blocks: usize) -> Vec<u8> {
        let params = Params::chain(1);
        generate::file(&Params { blocks, ..params }).bytes
    }

    /// The bytes that each call gives where so many are lent, and all of them.
    fn handed_out(file: &[u8], room: usize) -> Result<(Vec<usize>, Vec<u8>), NoResult> {
        let mut pages = Pages {
            lent: Lent::new(file)?,
            text: zeros(room)?,
            next: 1,
        };
        let (mut calls, mut all) = (vec![], vec![]);
        while let Some(texts) = pages.hand_out()? {
            calls.push(texts.len());
            all.extend_from_slice(texts);
        }
        Ok((calls, all))
    }

    #[test]
    fn one_call_gives_all_pages() {
        for (blocks, lines) in [(1, 2), (59, 60), (60, 61), (61, 63), (120, 122), (121, 124)] {
            let file = file(blocks);
            let mut pages = Pages::new(Lent::new(&file).expect("accepted")).expect("memory");
            assert_eq!(pages.text.len(), 65 * lines);
            let length = pages.hand_out().expect("pages").map(<[u8]>::len);
            assert_eq!(length, Some(65 * lines));
            assert_eq!(pages.hand_out(), Ok(None));
        }
    }

    #[test]
    fn no_call_is_made_where_there_are_no_blocks() {
        assert_eq!(handed_out(&file(0), 0), Ok((vec![], vec![])));
    }

    /// Pages of 3965, 3965 and 2015 bytes.
    #[test]
    fn calls_go_on_after_the_pages_that_fit() {
        let file = file(150);
        let (_, all) = handed_out(&file, 9945).expect("pages");
        let cases: [(usize, &[usize]); 6] = [
            (3965, &[3965, 3965, 2015]),
            (5979, &[3965, 3965, 2015]),
            (5980, &[3965, 5980]),
            (7930, &[7930, 2015]),
            (9944, &[7930, 2015]),
            (9945, &[9945]),
        ];
        for (room, calls) in cases {
            assert_eq!(handed_out(&file, room), Ok((calls.to_vec(), all.clone())));
        }
    }

    #[test]
    fn a_text_too_short_for_a_page_is_said() {
        let short = NoResult::Refused(Refused { number: 10, at: 0 });
        for room in [0, 65, 3964] {
            assert_eq!(handed_out(&file(150), room), Err(short));
        }
    }
}
