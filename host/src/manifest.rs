//! The manifest of a folder of units: what a run that ended wrote there. `sha256sum -c` reads it
//! too, since it takes lines that begin with # for comments.

use crate::names;
use crate::sha256;
use crate::totals::Totals;
use std::fmt::Write;

/// Instructions that a group of several blocks has at most.
const LIMIT: u64 = 8192;

/// Bytes that the text of a manifest of so many units has at most.
pub const fn most_bytes(units: u64) -> u64 {
    128 * (units + 2)
}

const TITLE: &str = "# The units that recomp wrote; recomp verify or sha256sum -c tests them.\n";

#[derive(Clone, Debug, PartialEq, Eq)]
pub struct Manifest {
    /// Units are closed from so many bytes on.
    pub size: u64,
    /// Blocks in all units.
    pub blocks: u64,
    /// The units in order, from 0.
    pub units: Vec<Entry>,
}

#[derive(Clone, Debug, PartialEq, Eq)]
pub struct Entry {
    /// Bytes.
    pub length: u64,
    /// The SHA-256 sum in hexadecimal.
    pub sum: String,
}

impl Entry {
    pub fn of(text: &[u8]) -> Entry {
        Entry {
            length: text.len() as u64,
            sum: sha256::hex(&sha256::sum(text)),
        }
    }
}

impl Manifest {
    pub fn totals(&self) -> Totals {
        Totals::of(self.units.iter().map(|unit| unit.length), self.blocks)
    }

    /// The text of the manifest.
    pub fn print(&self) -> String {
        let mut text = format!("{TITLE}# size {}\n# limit {LIMIT}\n", self.size);
        for (number, Entry { length, sum }) in self.units.iter().enumerate() {
            let name = names::unit(number as u64);
            writeln!(text, "# length {length}\n{sum}  {name}").expect("a string takes all");
        }
        let Totals {
            units,
            blocks,
            bytes,
        } = self.totals();
        writeln!(text, "# units {units}\n# blocks {blocks}\n# bytes {bytes}")
            .expect("a string takes all");
        text
    }

    /// The manifest that has this text, to the last byte.
    pub fn parse(text: &str) -> Option<Manifest> {
        let mut manifest = Manifest {
            size: number(text, "size")?,
            blocks: number(text, "blocks")?,
            units: vec![],
        };
        let mut length = None;
        for line in text.lines() {
            if line.starts_with('#') {
                length = number(line, "length");
            } else {
                let sum = line.split_once(' ')?.0.into();
                let length = length.take()?;
                manifest.units.push(Entry { length, sum });
            }
        }
        (manifest.print() == text && manifest.units.iter().all(has_a_sum)).then_some(manifest)
    }
}

/// The number in the first line that gives one under this name.
fn number(text: &str, name: &str) -> Option<u64> {
    let start = format!("# {name} ");
    let mut given = text.lines().filter_map(|line| line.strip_prefix(&start));
    given.next()?.parse().ok()
}

fn has_a_sum(unit: &Entry) -> bool {
    let digit = |byte: u8| byte.is_ascii_digit() || (b'a'..=b'f').contains(&byte);
    unit.sum.len() == 64 && unit.sum.bytes().all(digit)
}

#[cfg(test)]
mod tests {
    use super::*;

    fn example() -> Manifest {
        Manifest {
            size: 5,
            blocks: 3,
            units: vec![Entry::of(b"abc"), Entry::of(b"")],
        }
    }

    const TEXT: &str = "\
# The units that recomp wrote; recomp verify or sha256sum -c tests them.
# size 5
# limit 8192
# length 3
ba7816bf8f01cfea414140de5dae2223b00361a396177a9cb410ff61f20015ad  unit_000.c
# length 0
e3b0c44298fc1c149afbf4c8996fb92427ae41e4649b934ca495991b7852b855  unit_001.c
# units 2
# blocks 3
# bytes 3
";

    #[test]
    fn print_and_parse() {
        assert_eq!(example().print(), TEXT);
        assert_eq!(Manifest::parse(TEXT), Some(example()));
        let totals = example().totals().to_string();
        assert_eq!(totals, "units 2, blocks 3, bytes 3");
    }

    #[test]
    fn no_part_may_be_missing_or_changed() {
        for length in 0..TEXT.len() {
            assert_eq!(Manifest::parse(&TEXT[..length]), None, "{length}");
        }
        for (old, new) in [
            ("limit 8192", "limit 8193"),
            ("length 3", "length 03"),
            ("length 3", "length 4"),
            ("length 0", "length"),
            ("size 5", "size x"),
            ("ba78", "BA78"),
            ("ba78", "ba7"),
            ("unit_001", "unit_002"),
            ("units 2", "units 3"),
            ("bytes 3", "bytes 4"),
            ("# The", "The"),
        ] {
            let changed = TEXT.replace(old, new);
            assert_ne!(changed, TEXT);
            assert_eq!(Manifest::parse(&changed), None, "{new}");
        }
        assert_eq!(Manifest::parse(&format!("{TEXT}\n")), None);
    }
}
