//! Writes sections of stored vectors to the path given, in the order given, and prints how many
//! vectors there are for each answer.

use recomp_tools::original::Original;
use recomp_tools::vectors::decimal::{decimals, encode_decimals};
use recomp_tools::vectors::fronts::{encode_fronts, fronts, lengths};
use recomp_tools::vectors::grouping::{encode_exits, encode_plans, exits, plans};
use recomp_tools::vectors::measure::{encode_measures, measures};
use recomp_tools::vectors::pages::{encode_pages, page, pages};
use recomp_tools::vectors::reasons::{encode_reasons, reason, reasons};
use recomp_tools::vectors::write::{encode_writes, writes};
use recomp_tools::vectors::{all, encode};
use std::process::ExitCode;

/// A section's bytes, and the number of the answer of each of its vectors.
type Section = (Vec<u8>, Vec<u32>);

const USAGE: &str = concat!(
    "usage: vectors PATH ",
    "[check | exits | plan | measure | write | fronts | lengths | page | pages | reason | ",
    "reasons | decimal]..."
);

/// The section of some vectors.
fn encoded<V>(vectors: Vec<V>, number: fn(&V) -> u32, encode: fn(&[V]) -> Vec<u8>) -> Section {
    let numbers = vectors.iter().map(number).collect();
    (encode(&vectors), numbers)
}

fn section(name: &str) -> Result<Section, String> {
    let original = || Original::new()?.build("units");
    Ok(match name {
        "check" => encoded(all(), |v| v.expected.number, encode),
        "exits" => encoded(exits(), |v| v.expected.number, encode_exits),
        "plan" => encoded(plans(), |v| v.expected.number, encode_plans),
        "measure" => encoded(
            measures(&original()?),
            |v| v.expected.number,
            encode_measures,
        ),
        "write" => encoded(writes(&original()?), |v| v.expected.number, encode_writes),
        "fronts" => encoded(fronts(&original()?), |v| v.expected.number, encode_fronts),
        "lengths" => encoded(lengths(&original()?), |v| v.expected.number, encode_fronts),
        "page" => encoded(page(), |v| v.expected.number, encode_pages),
        "pages" => encoded(pages(), |v| v.expected.number, encode_pages),
        "reason" => encoded(reason(), |v| v.expected.number, encode_reasons),
        "reasons" => encoded(reasons(), |v| v.expected.number, encode_reasons),
        // A printer refuses nothing.
        "decimal" => encoded(decimals(), |_| 0, encode_decimals),
        _ => return Err(USAGE.to_string()),
    })
}

fn print(name: &str, bytes: &[u8], numbers: &[u32]) {
    for number in 0..=11 {
        match (number, numbers.iter().filter(|&&n| n == number).count()) {
            (_, 0) => {}
            (0, count) => println!("answered   {count:5}"),
            (_, count) => println!("refused {number:2} {count:5}"),
        }
    }
    println!("{name}: {} vectors, {} bytes", numbers.len(), bytes.len());
}

fn main() -> ExitCode {
    let words: Vec<String> = std::env::args().skip(1).collect();
    let Some((path, names)) = words.split_first() else {
        eprintln!("{USAGE}");
        return ExitCode::from(2);
    };
    let names = match names {
        [] => &["check".to_string()],
        names => names,
    };
    let mut out = vec![];
    for name in names {
        let (bytes, numbers) = match section(name) {
            Ok(section) => section,
            Err(reason) => {
                eprintln!("{reason}");
                return ExitCode::from(2);
            }
        };
        print(name, &bytes, &numbers);
        out.extend_from_slice(&bytes);
    }
    if let Err(error) = std::fs::write(path, &out) {
        eprintln!("{path}: {error}");
        return ExitCode::FAILURE;
    }
    ExitCode::SUCCESS
}
