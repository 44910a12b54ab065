//! The files that exits, plan, listing, pages, sentences and units are compared on: all are
//! accepted, and what they are for occurs.

use recomp_tools::check::check;
use recomp_tools::generate::linked::{Graph, Linked};
use recomp_tools::model::{blocks, exits, plan};
use recomp_tools::reasons::{self, Fate, Kind, Reason};
use recomp_tools::trials::{large, largest, limits, most_text, on_pages, shells, small};

/// The sizes of a plan's groups.
fn group_sizes(plan: &[[u32; 2]]) -> Vec<usize> {
    plan.chunk_by(|a, b| a[0] == b[0]).map(<[_]>::len).collect()
}

#[test]
fn small_files() {
    let mut lists = [0; 3];
    let [mut moved, mut grouped] = [0; 2];
    for trial in small(1_000, 0) {
        let file = trial.file();
        assert!(check(&file.bytes).is_ok(), "{trial:?}");
        exits(&file.bytes).iter().for_each(|e| lists[e.len()] += 1);
        let plan = plan(&file.bytes);
        moved += plan.windows(2).any(|w| w[0][1] > w[1][1]) as usize;
        grouped += group_sizes(&plan).iter().any(|&n| n > 2) as usize;
    }
    assert!(lists.iter().all(|&n| n > 1_000), "{lists:?}");
    assert!(moved > 200 && grouped > 200, "{moved:?} {grouped:?}");
}

/// Gotos within a group: ahead, and back to the block itself or to one before, through the gate.
#[test]
fn gotos() {
    let mut files = [0; 2];
    for trial in small(1_000, 0) {
        let file = trial.file().bytes;
        let blocks = blocks(&file);
        let mut group = vec![0; blocks.len()];
        plan(&file).iter().for_each(|&[g, i]| group[i as usize] = g);
        let mut gotos = [0; 2];
        for (i, block) in blocks.iter().enumerate() {
            for key in block.exits() {
                let to = blocks.iter().position(|b| b.key() == key);
                if to.is_some_and(|j| group[i] == group[j] && members(&group, i) > 1) {
                    gotos[(key & !1 <= block.address) as usize] += 1;
                }
            }
        }
        for (files, gotos) in files.iter_mut().zip(gotos) {
            *files += (gotos > 0) as usize;
        }
    }
    assert!(files.iter().all(|&n| n > 200), "{files:?}");
}

/// How many blocks share the group of block `i`.
fn members(group: &[u32], i: usize) -> usize {
    group.iter().filter(|&&g| g == group[i]).count()
}

/// Parts that reach the limit exactly, and components that go over it.
#[test]
fn large_files() {
    let [mut full, mut over] = [0; 2];
    let smaller = large(0).take(120).chain(limits(100, 1_000));
    for trial in smaller {
        let file = trial.file();
        assert!(check(&file.bytes).is_ok(), "{trial:?}");
        let length = |i: u32| file.word(file.block_at(i as usize, 2));
        let plan = plan(&file.bytes);
        for group in plan.chunk_by(|a, b| a[0] == b[0]) {
            let instructions: u32 = group.iter().map(|row| length(row[1])).sum();
            full += (instructions == 8_192 && group.len() > 1) as usize;
            over += (instructions > 8_192) as usize;
        }
    }
    assert!(full > 20 && over > 20, "{full} {over}");
}

/// Last pages with one line, with all lines and with one fewer, after none, one and two others; and
/// groups of three digits.
#[test]
fn files_on_pages() {
    let mut edges = [[0; 3]; 3];
    let mut many_groups = 0;
    for trial in on_pages(480, 0) {
        let file = trial.file();
        assert!(check(&file.bytes).is_ok(), "{trial:?}");
        let before = file.blocks.saturating_sub(1) / 60;
        if let Some(edges) = edges.get_mut(before) {
            match file.blocks - 60 * before {
                1 => edges[0] += 1,
                59 => edges[1] += 1,
                60 => edges[2] += 1,
                _ => {}
            }
        }
        many_groups += (group_sizes(&plan(&file.bytes)).len() > 100) as usize;
    }
    assert!(edges.as_flattened().iter().all(|&n| n >= 20), "{edges:?}");
    assert!(many_groups > 50, "{many_groups}");
}

/// The kinds that can have each reason.
fn kinds_of(reason: Reason) -> &'static [Kind] {
    use Kind::*;
    match reason {
        Reason::UnpairedHalf => &[ThumbBlHigh, ThumbBlLow],
        Reason::ConditionalExit | Reason::BiosExit => &[Bx, BlockMem],
        Reason::PcAsResult => &[Alu, Mul, Mem],
        Reason::RegisterShift => &[Alu, Mem],
        Reason::RotateWithExtend => &[Mem],
        Reason::UserRegisters | Reason::EmptyList | Reason::PcAsBase | Reason::PcInLoadedList => {
            &[BlockMem]
        }
        Reason::NoNativeForm => &[Swap, Mrs, MsrReg, MsrImm, Swi, Undefined],
    }
}

/// Every reason with every kind that can have it and with no other, every fate, pairs and rests
/// behind every kind of exit.
#[test]
fn files_with_shells() {
    let mut told = vec![];
    let mut exits = vec![];
    for trial in shells(2_000, 0) {
        let file = trial.file();
        assert!(check(&file.bytes).is_ok(), "{trial:?}");
        for block in reasons::blocks(&file.bytes) {
            let end = block.windows(2).find(|two| two[1].fate == Fate::Dropped);
            exits.extend(end.map(|two| two[0].kind));
            told.extend(block);
        }
    }
    for (reason, words) in Reason::ALL {
        for kind in Kind::ALL {
            let of = told.iter().filter(|told| told.kind == kind);
            let count = of.filter(|told| told.fate == Fate::Shell(reason)).count();
            let expected = kinds_of(reason).contains(&kind);
            assert_eq!(count > 50, expected, "{kind:?} {words}: {count}");
            assert!(expected || count == 0, "{kind:?} {words}: {count}");
        }
    }
    for fate in [Fate::Native, Fate::LeftWhole, Fate::Dropped] {
        let count = told.iter().filter(|told| told.fate == fate).count();
        assert!(count > 2_000, "{fate:?}: {count}");
    }
    for kind in [Kind::Branch, Kind::Bx, Kind::BlockMem, Kind::ThumbBlLow] {
        let count = exits.iter().filter(|&&exit| exit == kind).count();
        assert!(count > 50, "{kind:?}: {count}");
    }
}

#[test]
fn largest_files() {
    let mut most_instructions = 0;
    for trial in largest(0).skip(8).step_by(5) {
        let file = trial.file();
        assert!(check(&file.bytes).is_ok(), "{trial:?}");
        assert_eq!(file.blocks, 65_536);
        most_instructions += (file.instructions == 1_048_576) as usize;
    }
    assert!(most_instructions >= 3);
}

/// The chains are one component each, in parts that come in the order of keys.
#[test]
fn chains() {
    for graph in [Graph::Rising, Graph::Falling, Graph::First, Graph::Zigzag] {
        let chain = Linked::most(0, graph);
        let plan = plan(&chain.file().bytes);
        assert!(plan.iter().map(|row| row[1]).eq(0..65_536), "{graph:?}");
        let sizes = group_sizes(&plan);
        assert!(sizes.len() < 20, "{graph:?}: {}", sizes.len());
    }
}

/// Groups are far shorter than the limit, so that units of several sizes differ.
#[test]
fn most_text_of_all() {
    let (_, trial) = most_text();
    let file = trial.file();
    assert!(check(&file.bytes).is_ok());
    assert_eq!((file.blocks, file.instructions), (65_536, 1_048_576));
    let sizes = group_sizes(&plan(&file.bytes));
    assert!(sizes.iter().all(|&n| n == 16), "{} groups", sizes.len());
}
