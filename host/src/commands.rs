//! What each command does with its file.

use crate::args::Command;
use crate::failure::Failure;
use crate::folder::Folder;
use crate::input::{self, Input};
use crate::lent::{Lent, NoResult};
use crate::library;
use crate::output::{self, print};
use crate::pages::{self, Pages};
use crate::progress::Progress;
use crate::reasons::{self, Reasons};
use crate::refusal;
use crate::summary::Summary;
use crate::totals::Totals;
use crate::units::{self, Units};
use crate::unprinted::{self, Why};
use crate::verify;
use std::ffi::OsStr;
use std::fmt::Write;
use std::path::Path;

pub fn run(command: Command) -> Result<(), Failure> {
    output::ready()?;
    match command {
        Command::Say(text) => print(text.as_bytes()),
        Command::Units {
            file,
            folder,
            size,
            memory,
        } => units(&file, &folder, size, memory),
        Command::Measure { file, unit, size } => match unit {
            Some(unit) => measure_of(&file, unit, size),
            None => measure(&file, size),
        },
        Command::Check { file } => check(&file),
        Command::Plan { file } => plan(&file),
        Command::Page { file, page } => match page {
            Some(number) => page_of(&file, number),
            None => pages(&file),
        },
        Command::Exits { file, block } => match block {
            Some(block) => exits_of(&file, block),
            None => exits(&file),
        },
        Command::Listing { file } => listing(&file),
        Command::Reasons { file, instruction } => match instruction {
            Some(instruction) => reason_of(&file, instruction),
            None => reasons(&file),
        },
        Command::Summary { file } => summary(&file),
        Command::Verify { folder } => verify(&folder),
    }
}

/// The failure for a call that gave nothing.
fn failed(input: &Input, nothing: NoResult) -> Failure {
    match nothing {
        NoResult::Refused(refused) => Failure::refused(refusal::line(&input.name, refused)),
        NoResult::NoMemory(bytes) => Failure::error(format!(
            "{bytes} bytes of memory could not be had; free memory, or run on a larger machine"
        )),
    }
}

fn check(file: &OsStr) -> Result<(), Failure> {
    let input = input::read(file)?;
    let checked = library::check(&input.bytes);
    let counts = checked.map_err(|refused| failed(&input, NoResult::Refused(refused)))?;
    let line = format!(
        "accepted: blocks {}, instructions {}\n",
        counts.blocks, counts.instructions
    );
    print(line.as_bytes())
}

fn plan(file: &OsStr) -> Result<(), Failure> {
    let input = input::read(file)?;
    let plan = Lent::new(&input.bytes).and_then(|mut lent| lent.plan());
    let plan = plan.map_err(|nothing| failed(&input, nothing))?;
    let mut text = String::from("group block\n");
    for row in plan.chunks_exact(2) {
        push(&mut text, format_args!("{} {}\n", row[0], row[1]));
    }
    print(text.as_bytes())
}

fn push(text: &mut String, more: std::fmt::Arguments) {
    text.write_fmt(more).expect("a string takes all");
}

/// One page.
fn page_of(file: &OsStr, number: u64) -> Result<(), Failure> {
    let input = input::read(file)?;
    let mut lent = Lent::new(&input.bytes).map_err(|nothing| failed(&input, nothing))?;
    let page = pages::page(&mut lent, number).map_err(|nothing| match nothing {
        NoResult::Refused(refused) => {
            let pages = pages::count(lent.counts.blocks);
            Failure::refused(refusal::line_for_page(&input.name, refused, number, pages))
        }
        no_memory => failed(&input, no_memory),
    })?;
    print(&page)
}

/// All pages; a file without blocks has none.
fn pages(file: &OsStr) -> Result<(), Failure> {
    let input = input::read(file)?;
    let failed = |nothing| failed(&input, nothing);
    let pages = Lent::new(&input.bytes).and_then(Pages::new);
    let mut pages = pages.map_err(failed)?;
    while let Some(texts) = pages.hand_out().map_err(failed)? {
        print(texts)?;
    }
    Ok(())
}

const EXITS: &str = "block exits\n";

/// The exits of one block.
fn exits_of(file: &OsStr, block: u64) -> Result<(), Failure> {
    let input = input::read(file)?;
    let exits = library::exits(&input.bytes, block);
    let exits = exits.map_err(|refused| {
        Failure::refused(refusal::line_for_block(&input.name, refused, block))
    })?;
    let keys: Vec<_> = exits.iter().map(|key| format!("{key:08x}")).collect();
    let keys = if keys.is_empty() {
        "-".into()
    } else {
        keys.join(" ")
    };
    print(format!("{EXITS}{block} {keys}\n").as_bytes())
}

/// The exits of all blocks. A call for each would check the file each time, so they are taken from
/// the listing, where they follow key and group.
fn exits(file: &OsStr) -> Result<(), Failure> {
    let input = input::read(file)?;
    let mut lent = Lent::new(&input.bytes).map_err(|nothing| failed(&input, nothing))?;
    let listing = lent.listing().map_err(|nothing| failed(&input, nothing))?;
    let listing = std::str::from_utf8(&listing).expect("a listing is ASCII");
    let mut text = String::from(EXITS);
    for (block, line) in listing.lines().skip(1).enumerate() {
        let keys = line.splitn(3, ' ').nth(2).expect("key, group and exits");
        push(&mut text, format_args!("{block} {keys}\n"));
    }
    print(text.as_bytes())
}

fn listing(file: &OsStr) -> Result<(), Failure> {
    let input = input::read(file)?;
    let mut lent = Lent::new(&input.bytes).map_err(|nothing| failed(&input, nothing))?;
    print(&lent.listing().map_err(|nothing| failed(&input, nothing))?)
}

/// The sentence of one instruction, or a line on standard error that says why it has none.
fn reason_of(file: &OsStr, instruction: u64) -> Result<(), Failure> {
    let input = input::read(file)?;
    let refused = |refused| failed(&input, NoResult::Refused(refused));
    let counts = library::check(&input.bytes).map_err(refused)?;
    let line = reasons::line(&input.bytes, instruction).map_err(|refused| {
        let all = counts.instructions;
        let line = refusal::line_for_instruction(&input.name, refused, instruction, all);
        Failure::refused(line)
    })?;
    match line {
        Some(line) => print(&line),
        None => {
            output::say(&without_shell(&input, instruction));
            Ok(())
        }
    }
}

/// Why an instruction has no sentence.
fn without_shell(input: &Input, instruction: u64) -> String {
    let why = match unprinted::why(&input.bytes, instruction) {
        None => "it is native",
        Some(Why::Deferred) => {
            "its block, outside ROM and BIOS and without code bytes, is left whole to the \
             interpreter"
        }
        Some(Why::Dropped) => "it is dropped, behind an unconditional native exit of its block",
    };
    let name = &input.name;
    format!("recomp: {name}: instruction {instruction} has no shell of its own: {why}")
}

/// The sentences of all instructions that have a shell.
fn reasons(file: &OsStr) -> Result<(), Failure> {
    let input = input::read(file)?;
    let failed = |nothing| failed(&input, nothing);
    let mut reasons = Reasons::new(&input.bytes).map_err(failed)?;
    while let Some(lines) = reasons.hand_out().map_err(failed)? {
        print(lines)?;
    }
    Ok(())
}

/// What becomes of the instructions, and how many have which sentence.
fn summary(file: &OsStr) -> Result<(), Failure> {
    let input = input::read(file)?;
    let summary = Summary::of(&input.bytes).map_err(|nothing| failed(&input, nothing))?;
    print(summary.to_string().as_bytes())
}

fn units(file: &OsStr, folder: &Path, size: u64, memory: u64) -> Result<(), Failure> {
    let input = input::read(file)?;
    let units = Lent::new(&input.bytes).and_then(|lent| Units::new(lent, size, memory));
    let mut units = units.map_err(|nothing| failed(&input, nothing))?;
    if let Some([lent, wished]) = units.short() {
        output::say(&format!(
            "recomp: memory is short: text of {lent} bytes is made at a time in place of {wished}, \
             which takes longer"
        ));
    }
    let mut folder = Folder::open(folder, units.lengths())?;
    write_units(&input, &mut units, &mut folder)?;
    let manifest = folder.finish(size, units.blocks())?;
    print(format!("{}\n", manifest.totals()).as_bytes())
}

/// Writes all units, as they are handed out.
fn write_units(input: &Input, units: &mut Units, folder: &mut Folder) -> Result<(), Failure> {
    let mut progress = Progress::new(units.lengths());
    while let Some(texts) = units.hand_out().map_err(|nothing| failed(input, nothing))? {
        folder.write(&texts, |length| progress.add(length))?;
    }
    Ok(())
}

/// What is told of one unit. How many there are is asked for only where there is no such unit.
fn measure_of(file: &OsStr, unit: u64, size: u64) -> Result<(), Failure> {
    let input = input::read(file)?;
    let failed = |nothing| failed(&input, nothing);
    let mut lent = Lent::new(&input.bytes).map_err(failed)?;
    let told = match library::measure(lent.file, size, unit, &mut lent.work) {
        Ok(told) => told,
        Err(refused) => {
            let all = units::lengths_of(&mut lent, size).map_err(failed)?;
            let line = refusal::line_for_unit(&input.name, refused, unit, all.len() as u64);
            return Err(Failure::refused(line));
        }
    };
    let line = format!("{} {} {} {}", told.unit, told.length, told.done, told.last);
    print(format!("unit length done last\n{line}\n").as_bytes())
}

/// The length of each unit, and the totals.
fn measure(file: &OsStr, size: u64) -> Result<(), Failure> {
    let input = input::read(file)?;
    let failed = |nothing| failed(&input, nothing);
    let mut lent = Lent::new(&input.bytes).map_err(failed)?;
    let lengths = units::lengths_of(&mut lent, size).map_err(failed)?;
    let mut text = String::from("unit length\n");
    for (unit, length) in lengths.iter().enumerate() {
        push(&mut text, format_args!("{unit} {length}\n"));
    }
    let totals = Totals::of(lengths.into_iter(), lent.counts.blocks);
    push(&mut text, format_args!("{totals}\n"));
    print(text.as_bytes())
}

fn verify(folder: &Path) -> Result<(), Failure> {
    let manifest = verify::verify(folder)?;
    print(format!("verified: {}\n", manifest.totals()).as_bytes())
}
