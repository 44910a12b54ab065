//! `compare plan`: the plan of generated files against the original's, and every number lent.

use crate::{library, trial_words};
use recomp_tools::damage::damaged_copy;
use recomp_tools::model::{self, plan_numbers, PlanNumbers};
use recomp_tools::original::Original;
use recomp_tools::trials::{self, Trial};

/// What a lent number holds before a call. It is no group and no block index.
const UNWRITTEN: u32 = 0x5555_5555;

/// Numbers lent beyond those that the call needs.
const SPARE_WORK: usize = 3;
const SPARE_PLAN: usize = 5;

#[derive(Default)]
struct Tally {
    files: u64,
    blocks: usize,
    calls: u64,
    mismatches: u64,
}

/// Which numbers a call must have made 0, and what it must have put at the plan's front.
struct After<'a> {
    cleared: usize,
    plan: &'a [[u32; 2]],
}

/// A call that must leave everything as it was.
const UNCHANGED: After = After {
    cleared: 0,
    plan: &[],
};

impl Tally {
    /// One call with so many numbers lent, and all that it leaves.
    fn call(&mut self, trial: &Trial, file: &[u8], lent: [usize; 2], after: After) {
        let [work_len, plan_len] = lent;
        let mut work = vec![UNWRITTEN; work_len];
        let mut plan = vec![UNWRITTEN; plan_len];
        let answer = library::plan(file, &mut work, &mut plan);
        let expected = plan_numbers(file, work_len, plan_len);
        let (cleared, rest) = work.split_at(after.cleared);
        let work_right = cleared.iter().all(|&n| n == 0) && rest.iter().all(|&n| n == UNWRITTEN);
        let (front, rest) = plan.split_at(2 * after.plan.len());
        let plan_right = front == after.plan.as_flattened() && rest.iter().all(|&n| n == UNWRITTEN);
        self.calls += 1;
        if answer == expected && work_right && plan_right {
            return;
        }
        self.mismatches += 1;
        println!("{trial:?}, {work_len} work and {plan_len} plan numbers:");
        println!("  library {answer:?}, expected {expected:?}");
        println!("  work numbers right: {work_right}, plan right: {plan_right}");
        if let Some(n) = (0..front.len()).find(|&n| front[n] != after.plan.as_flattened()[n]) {
            println!("  first wrong number of the plan: {n}");
        }
    }

    fn compare(&mut self, trial: &Trial, original: &Original) {
        let file = trial.file();
        let bytes = &file.bytes[..];
        let (work, plan) = (4 * file.blocks, 2 * file.blocks);
        self.files += 1;
        self.blocks += file.blocks;
        let expected = original.plan(bytes);
        assert_eq!(expected.len(), file.blocks, "{trial:?}");
        let whole = || After {
            cleared: work,
            plan: &expected,
        };
        let spare = [work + SPARE_WORK, plan + SPARE_PLAN];
        self.call(trial, bytes, [work, plan], whole());
        self.call(trial, bytes, spare, whole());
        if file.blocks > 0 {
            self.call(trial, bytes, [work - 1, plan], UNCHANGED);
            self.call(trial, bytes, [work - 1, plan - 1], UNCHANGED);
            self.call(trial, bytes, [0, plan + SPARE_PLAN], UNCHANGED);
            for plan_len in [plan - 1, 0] {
                let cleared = work;
                let after = After { cleared, plan: &[] };
                self.call(trial, bytes, [work + SPARE_WORK, plan_len], after);
            }
        }
        self.compare_damaged(trial, &damaged_copy(&file), spare);
    }

    /// A damaged copy may be accepted, with as many blocks or fewer.
    fn compare_damaged(&mut self, trial: &Trial, copy: &[u8], lent: [usize; 2]) {
        match plan_numbers(copy, lent[0], lent[1]) {
            PlanNumbers {
                number: 0, blocks, ..
            } => {
                let after = After {
                    cleared: 4 * blocks as usize,
                    plan: &model::plan(copy),
                };
                self.call(trial, copy, lent, after);
            }
            _ => self.call(trial, copy, lent, UNCHANGED),
        }
    }
}

pub fn run(words: &[String]) -> Option<u64> {
    let (files, first, original) = trial_words(words)?;
    let mut tally = Tally::default();
    for trial in trials::small(files, first).chain(trials::large(first)) {
        tally.compare(&trial, &original);
    }
    println!("{} blocks, {} calls", tally.blocks, tally.calls);
    println!(
        "plan: {} files, {} mismatches",
        tally.files, tally.mismatches
    );
    Some(tally.mismatches)
}
