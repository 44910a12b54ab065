//! What became of instructions, by the model, so that what the comparison rests on is seen to
//! occur.

use recomp_tools::reasons::{blocks, Fate, Instruction, Kind, Reason};

const KINDS: usize = Kind::ALL.len();

#[derive(Default)]
pub struct Counts {
    /// Shells by reason, then by kind.
    shells: [[u64; KINDS]; Reason::ALL.len()],
    native: u64,
    /// Of the native ones, halves of pairs.
    halves: u64,
    /// Lone halves that are the last of their block.
    last_halves: u64,
    left_whole: u64,
    /// Dropped ones by the kind of the exit.
    dropped: [u64; KINDS],
}

impl Counts {
    /// Counts the instructions of an accepted file.
    pub fn add(&mut self, file: &[u8]) {
        blocks(file).iter().for_each(|block| self.add_block(block));
    }

    fn add_block(&mut self, block: &[Instruction]) {
        // The exit is the last instruction before those that are dropped.
        let mut exit = None;
        for instruction in block {
            match instruction.fate {
                Fate::Native => {
                    self.native += 1;
                    let half = matches!(instruction.kind, Kind::ThumbBlHigh | Kind::ThumbBlLow);
                    self.halves += half as u64;
                }
                Fate::Shell(reason) => {
                    self.shells[reason as usize][instruction.kind as usize] += 1;
                }
                Fate::LeftWhole => self.left_whole += 1,
                Fate::Dropped => {
                    let exit: Kind = exit.expect("an exit before what is dropped");
                    self.dropped[exit as usize] += 1;
                    continue;
                }
            }
            exit = Some(instruction.kind);
        }
        let last = block.last().map(|instruction| instruction.fate);
        self.last_halves += (last == Some(Fate::Shell(Reason::UnpairedHalf))) as u64;
    }

    pub fn print(&self) {
        println!("shells of small files, by reason and kind:");
        for ((_, words), kinds) in Reason::ALL.iter().zip(&self.shells) {
            println!("  {words}: {}", listed(kinds));
        }
        println!(
            "  of the halves the last of their block: {}",
            self.last_halves
        );
        println!("dropped by kind of the exit: {}", listed(&self.dropped));
        let shells: u64 = self.shells.as_flattened().iter().sum();
        let dropped: u64 = self.dropped.iter().sum();
        println!(
            "native {} (in pairs {}), shells {shells}, left whole {}, dropped {dropped}",
            self.native, self.halves, self.left_whole
        );
    }
}

/// The kinds that occur, each with its count.
fn listed(counts: &[u64; KINDS]) -> String {
    let occurring = Kind::ALL.iter().zip(counts).filter(|(_, &count)| count > 0);
    let listed: Vec<String> = occurring
        .map(|(kind, count)| format!("{kind:?} {count}"))
        .collect();
    listed.join(", ")
}
