//! Why instructions go to the interpreter: their sentences, all or one, instructions that have none
//! or that there are not, and the summary.

mod common;

use common::{lone, lone_blocks, recomp, recomp_on, sample, with_memory, Run, Scratch};
use recomp_tools::file::{build, Block};
use recomp_tools::generate::{self, Params};
use recomp_tools::reasons::{blocks, Fate, Instruction, Kind, Reason};
use recomp_tools::record::{block_mem, mem, Offset, Operand, Record, Shifted};

const EQ: u8 = 0;
const NV: u8 = 15;
const PC: u8 = 15;

const CMP: u8 = 10;
const MOV: u8 = 13;

const IN_BIOS: u32 = 0x0000_0000;
const IN_RAM: u32 = 0x0300_0000;
const IN_ROM: u32 = 0x0800_0000;

/// The flags of a BlockMem that pops.
const POP: u8 = block_mem::LOAD | block_mem::UP | block_mem::WRITEBACK;

fn native() -> Record {
    Record::mul(false, false, 0, 0, 1, 2)
}

fn swi() -> Record {
    Record::swi([0; 12])
}

/// An ARM block without code bytes.
fn arm(address: u32, records: &[Record]) -> Block {
    Block {
        records: records.into(),
        ..lone(address, native())
    }
}

/// The same with code bytes.
fn with_code(block: Block) -> Block {
    Block {
        code: Some(vec![0; block.byte_len()]),
        ..block
    }
}

/// A file that is asked for its reasons.
struct Title {
    path: String,
    _scratch: Scratch,
}

impl Title {
    fn of(blocks: &[Block]) -> Title {
        let scratch = Scratch::new();
        Title {
            path: scratch.file("title.blk", &build(blocks).bytes),
            _scratch: scratch,
        }
    }

    fn run(&self, after: &[&str]) -> Run {
        recomp(&[&["reasons", &self.path], after].concat())
    }

    fn one(&self, instruction: usize) -> Run {
        self.run(&[&instruction.to_string()])
    }

    /// Why an instruction has no shell of its own, of which a line on standard error tells.
    #[track_caller]
    fn without_shell(&self, instruction: usize) -> String {
        let line = self.one(instruction).failed(0);
        let what = format!("instruction {instruction} has no shell of its own");
        let start = format!("recomp: {}: {what}: ", self.path);
        line.strip_prefix(&start).expect("the line").into()
    }

    fn summary(&self) -> String {
        self.run(&["--summary"]).printed()
    }
}

#[test]
fn the_sentences_of_samples() {
    let generated = "\
07000094 Mrs no native form
08000010 Alu PC as result or stored register
08000000 Alu register-given shift
08000032 Mem PC as result or stored register
08000038 BlockMem PC in a loaded list
0800003c Alu register-given shift
08000044 Alu register-given shift
0800004c BlockMem user registers
08000040 Mem register-given shift
08000048 Mem register-given shift
08000054 Alu register-given shift
fe000068 Mem register-given shift
fe000074 ThumbBlHigh unpaired half
fe000080 BlockMem PC in a loaded list
";
    for (name, expected) in [
        ("generated.blk", generated),
        ("count_down.blk", ""),
        ("three_blocks.blk", ""),
        ("ram_and_thumb.blk", ""),
        ("saved_base.blk", ""),
        ("no_blocks.blk", ""),
    ] {
        let printed = recomp(&["reasons", &sample(name)]).printed();
        assert_eq!(printed, expected, "{name}");
    }
}

/// A record, and what is said of it behind its address.
type Said = (Record, &'static str);

fn halves_and_exits() -> Vec<Said> {
    let (bx, pop) = (Record::bx(14), Record::block_mem(POP, 13, 0x8001));
    vec![
        (Record::thumb_bl_low(0), "ThumbBlLow unpaired half"),
        (Record::thumb_bl_high(0), "ThumbBlHigh unpaired half"),
        (bx.with_cond(EQ), "Bx conditional exit"),
        (bx.with_cond(NV), "Bx conditional exit"),
        (pop.with_cond(EQ), "BlockMem conditional exit"),
    ]
}

fn results_and_shifts() -> Vec<Said> {
    let value = Operand::Value { value: 1, ror: 0 };
    let alu = |operation, rd, operand| Record::alu(operation, true, rd, 0, operand);
    let load = |rd, offset| Record::mem(mem::LOAD, 2, rd, 0, offset);
    let by_register = Shifted::ByRegister {
        rm: 1,
        kind: 0,
        rs: 2,
    };
    let (operand, offset) = (
        Operand::Register(by_register),
        Offset::Register(by_register),
    );
    let extended = Offset::Register(Shifted::ByAmount {
        rm: 1,
        kind: 3,
        amount: 0,
    });
    let by_pc = Record::mul(false, false, PC, 0, 1, 2);
    vec![
        (alu(MOV, PC, value), "Alu PC as result or stored register"),
        (alu(CMP, PC, operand), "Alu PC as result or stored register"),
        (by_pc, "Mul PC as result or stored register"),
        (load(PC, offset), "Mem PC as result or stored register"),
        (alu(MOV, 0, operand), "Alu register-given shift"),
        (load(0, offset), "Mem register-given shift"),
        (load(0, extended), "Mem rotate with extend in an offset"),
    ]
}

fn transfers() -> Vec<Said> {
    let transfer = Record::block_mem;
    let user = POP | block_mem::S_BIT;
    let kept = POP ^ block_mem::WRITEBACK;
    vec![
        (transfer(user, PC, 0), "BlockMem user registers"),
        (transfer(POP, PC, 0), "BlockMem empty list"),
        (transfer(POP, PC, 0x8001), "BlockMem PC as base"),
        (transfer(kept, 13, 0x8001), "BlockMem PC in a loaded list"),
    ]
}

fn without_form() -> Vec<Said> {
    let rest = [PC; 12];
    vec![
        (Record::swap(rest), "Swap no native form"),
        (Record::mrs(rest), "Mrs no native form"),
        (Record::msr_reg(rest), "MsrReg no native form"),
        (Record::msr_imm(rest), "MsrImm no native form"),
        (Record::swi(rest), "Swi no native form"),
        (Record::undefined(rest), "Undefined no native form"),
    ]
}

/// Each reason with each kind that can have it, in ROM; the BIOS has one reason more.
fn in_rom() -> Vec<Said> {
    let all = [
        halves_and_exits(),
        results_and_shifts(),
        transfers(),
        without_form(),
    ];
    all.concat()
}

fn in_bios() -> Vec<Said> {
    vec![
        (Record::bx(14), "Bx BIOS exit"),
        (Record::block_mem(POP, 13, 0x8001), "BlockMem BIOS exit"),
    ]
}

#[test]
fn every_reason_with_every_kind_that_has_it() {
    for (address, said) in [
        (IN_ROM, in_rom()),
        (IN_ROM + 0x1000_0000, in_rom()),
        (IN_RAM, in_rom()),
        (IN_BIOS, [in_bios(), in_rom()].concat()),
        (IN_BIOS + 0x1000_0000, in_bios()),
    ] {
        let (records, words): (Vec<_>, Vec<_>) = said.into_iter().unzip();
        let title = Title::of(&[with_code(arm(address, &records))]);
        let lines = (address..).step_by(4).zip(words);
        let lines = lines.map(|(address, words)| format!("{address:08x} {words}\n"));
        let lines: Vec<_> = lines.collect();
        assert_eq!(title.run(&[]).printed(), lines.concat());
        for (instruction, line) in lines.iter().enumerate() {
            assert_eq!(title.one(instruction).printed(), *line);
        }
    }
}

/// The addresses of a Thumb block are two apart, and numbers go through the file.
#[test]
fn sentences_of_several_blocks() {
    let thumb = Block {
        thumb: true,
        ..arm(IN_ROM, &[native(), swi(), swi()])
    };
    let title = Title::of(&[thumb, arm(IN_ROM + 8, &[swi(), native(), swi()])]);
    let all: Vec<_> = ["08000002", "08000004", "08000008", "08000010"]
        .map(|address| format!("{address} Swi no native form\n"))
        .into();
    assert_eq!(title.run(&[]).printed(), all.concat());
    for (instruction, line) in [1, 2, 3, 5].into_iter().zip(all) {
        assert_eq!(title.one(instruction).printed(), line);
    }
}

const NATIVE: &str = "it is native";
const DROPPED: &str = "it is dropped, behind an unconditional native exit of its block";
const DEFERRED: &str =
    "its block, outside ROM and BIOS and without code bytes, is left whole to the interpreter";

#[test]
fn instructions_without_a_shell() {
    let [high, low] = [Record::thumb_bl_high(0), Record::thumb_bl_low(0)];
    let pair = [high.with_cond(EQ), low, swi()];
    let rom = [native(), Record::branch(false, 8).with_cond(EQ), native()];
    let title = Title::of(&[
        arm(IN_RAM, &[swi(), native()]),
        with_code(arm(IN_RAM + 8, &[Record::bx(14), swi()])),
        arm(IN_ROM, &pair),
        arm(IN_ROM + 12, &rom),
    ]);
    assert_eq!(title.run(&[]).printed(), "");
    let expected = [
        [DEFERRED, DEFERRED].as_slice(),
        &[NATIVE, DROPPED],
        &[NATIVE, NATIVE, DROPPED],
        &[NATIVE, NATIVE, NATIVE],
    ];
    for (instruction, why) in expected.concat().into_iter().enumerate() {
        assert_eq!(title.without_shell(instruction), why);
    }
}

/// The line for an instruction that a file with so many blocks of one does not have.
fn refused(blocks: u32, number: &str) -> String {
    let line = recomp_on(&lone_blocks(blocks).bytes, &["reasons", "-", number]).failed(1);
    let start = format!("refused 9 at 0: standard input: there is no instruction {number}");
    line.strip_prefix(&start).expect("a refusal").into()
}

#[test]
fn instructions_that_there_are_not() {
    for number in ["3", "4294967296", "18446744073709551615"] {
        let among = " among the 3; name one of instructions 0 to 2";
        assert_eq!(refused(3, number), among);
        assert_eq!(refused(1, number), "; name instruction 0, the only one");
        let none = ", nor any other, as there are no blocks; name another file";
        assert_eq!(refused(0, number), none);
    }
}

/// Dropped instructions, a fused pair, halves, blocks with and without code bytes.
#[test]
fn the_summary_of_a_file_counted_by_hand() {
    let [high, low] = [Record::thumb_bl_high(0), Record::thumb_bl_low(0)];
    let [bx, branch] = [Record::bx(14), Record::branch(false, 8)];
    let title = Title::of(&[
        // A shell, an exit of the BIOS, a native branch, two dropped.
        arm(IN_BIOS, &[swi(), bx, branch, swi(), native()]),
        // Five that the interpreter has whole.
        arm(IN_RAM, &[swi(), native(), bx, high, low]),
        // A native one, a shell, a native exit, one dropped.
        with_code(arm(IN_RAM + 20, &[native(), swi(), bx, swi()])),
        // Two halves that are none of a pair, two of a pair, one dropped.
        arm(IN_ROM, &[low, high, high, low, low]),
        // Native ones alone.
        arm(IN_ROM + 20, &[native(), branch.with_cond(EQ)]),
    ]);
    let expected = "\
count percent outcome
7 33.3 native
5 23.8 shell
5 23.8 deferred
4 19.0 dropped
21 100.0 all
count percent kind reason
1 4.8 ThumbBlHigh unpaired half
1 4.8 ThumbBlLow unpaired half
1 4.8 Bx BIOS exit
2 9.5 Swi no native form
";
    assert_eq!(title.summary(), expected);
}

#[test]
fn the_summary_of_samples() {
    let outcomes = |[native, shell, deferred, dropped, all]: [&str; 5]| {
        let lines = format!("{native} native\n{shell} shell\n{deferred} deferred\n");
        let lines = format!("{lines}{dropped} dropped\n{all} all\n");
        format!("count percent outcome\n{lines}count percent kind reason\n")
    };
    for (name, counts) in [
        ("no_blocks.blk", ["0 -", "0 -", "0 -", "0 -", "0 -"]),
        (
            "ram_and_thumb.blk",
            ["2 66.7", "0 0.0", "1 33.3", "0 0.0", "3 100.0"],
        ),
        (
            "count_down.blk",
            ["4 100.0", "0 0.0", "0 0.0", "0 0.0", "4 100.0"],
        ),
    ] {
        let printed = recomp(&["reasons", &sample(name), "--summary"]).printed();
        assert_eq!(printed, outcomes(counts), "{name}");
    }
}

/// A line of the summary.
fn counted(count: usize, all: usize, what: &str) -> String {
    let percent = match all {
        0 => "-".into(),
        all => {
            let tenths = (2000 * count + all) / (2 * all);
            format!("{}.{}", tenths / 10, tenths % 10)
        }
    };
    format!("{count} {percent} {what}\n")
}

/// The summary by the tools' own account of each instruction.
fn expected_summary(instructions: &[Instruction]) -> String {
    let all = instructions.len();
    let line = |what: &str, is: &dyn Fn(&Instruction) -> bool| {
        let count = instructions.iter().filter(|one| is(one)).count();
        (count, counted(count, all, what))
    };
    let outcomes = [
        line("native", &|one| one.fate == Fate::Native),
        line("shell", &|one| one.sentence().is_some()),
        line("deferred", &|one| one.fate == Fate::LeftWhole),
        line("dropped", &|one| one.fate == Fate::Dropped),
    ];
    assert_eq!(outcomes.iter().map(|(count, _)| count).sum::<usize>(), all);
    let mut text = String::from("count percent outcome\n");
    text.extend(outcomes.map(|(_, line)| line));
    text.push_str(&counted(all, all, "all"));
    text.push_str("count percent kind reason\n");
    for (reason, words) in Reason::ALL {
        for kind in Kind::ALL {
            let is = |one: &Instruction| one.kind == kind && one.fate == Fate::Shell(reason);
            let (count, line) = line(&format!("{kind:?} {words}"), &is);
            text.push_str(if count == 0 { "" } else { &line });
        }
    }
    text
}

#[test]
fn the_summary_is_that_of_the_tools() {
    let small = (0..60).map(Params::small);
    for params in small.chain([Params::chain(1), Params::components(1)]) {
        let file = generate::file(&params).bytes;
        let printed = recomp_on(&file, &["reasons", "-", "--summary"]).printed();
        assert_eq!(printed, expected_summary(&blocks(&file).concat()));
    }
}

#[test]
fn options_may_stand_anywhere_and_standard_input_will_do() {
    let path = sample("generated.blk");
    let file = std::fs::read(&path).expect("the sample");
    let summary = recomp(&["reasons", &path, "--summary"]).printed();
    for args in [["reasons", "--summary", "-"], ["reasons", "-", "--summary"]] {
        assert_eq!(recomp_on(&file, &args).printed(), summary);
    }
    let one = "fe000074 ThumbBlHigh unpaired half\n";
    let all = recomp(&["reasons", &path]).printed();
    assert_eq!(recomp_on(&file, &["reasons", "-"]).printed(), all);
    assert!(all.contains(one));
    let mut printed = vec![];
    for instruction in 0..72 {
        let run = recomp_on(&file, &["reasons", "-", &instruction.to_string()]);
        assert_eq!(
            (run.status, run.out.is_empty()),
            (Some(0), !run.err.is_empty())
        );
        printed.push(run.out);
    }
    assert_eq!(printed.concat(), all);
}

/// There is memory for the file (4 MiB), and not for the text that would hold a line for each of
/// its 262,140 instructions.
#[test]
fn memory_that_cannot_be_had_is_said() {
    let blocks = (0..4).map(|n| arm(IN_ROM + 0x0010_0000 * n, &[swi(); 65_535]));
    let title = Title::of(&blocks.collect::<Vec<_>>());
    let run = |after: &[&str]| with_memory(14 << 10, &[&["reasons", &title.path], after].concat());
    for after in [&[][..], &["--summary"]] {
        let line = run(after).failed(2);
        let what = "13893420 bytes of memory could not be had";
        let advice = "free memory, or run on a larger machine";
        assert_eq!(line, format!("recomp: {what}; {advice}"));
    }
    // One sentence needs no such text.
    let sentence = "0833fff8 Swi no native form\n";
    assert_eq!(run(&["262139"]).printed(), sentence);
}
