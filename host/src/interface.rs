//! The calls of include/recomp.h: declared, and in safe functions that hand over every number,
//! what the call returned first, then those that it was lent, in the header's order.

/// What a lent number holds before a call, so that one left unwritten shows.
const UNWRITTEN: u64 = 0x5555_5555_5555_5555;

pub fn check(file: &[u8]) -> (u32, [u64; 3]) {
    let [mut at, mut blocks, mut instructions] = [UNWRITTEN; 3];
    // SAFETY: the slice and the three numbers outlive the call, which keeps none of them.
    let number = unsafe {
        recomp_check(
            file.as_ptr(),
            file.len(),
            &mut at,
            &mut blocks,
            &mut instructions,
        )
    };
    (number, [at, blocks, instructions])
}

pub fn exits(file: &[u8], block: u64) -> (u32, [u64; 4]) {
    let [mut at, mut count, mut first, mut second] = [UNWRITTEN; 4];
    // SAFETY: the slice and the four numbers outlive the call, which keeps none of them.
    let number = unsafe {
        recomp_exits(
            file.as_ptr(),
            file.len(),
            block,
            &mut at,
            &mut count,
            &mut first,
            &mut second,
        )
    };
    (number, [at, count, first, second])
}

pub fn plan(file: &[u8], work: &mut [u32], plan: &mut [u32]) -> (u32, [u64; 2]) {
    let [mut at, mut blocks] = [UNWRITTEN; 2];
    // SAFETY: the three slices and the two numbers are apart and outlive the call, which keeps none
    // of them.
    let number = unsafe {
        recomp_plan(
            file.as_ptr(),
            file.len(),
            work.as_mut_ptr(),
            work.len(),
            plan.as_mut_ptr(),
            plan.len(),
            &mut at,
            &mut blocks,
        )
    };
    (number, [at, blocks])
}

pub fn listing(file: &[u8], work: &mut [u32], text: &mut [u8]) -> (u32, [u64; 2]) {
    let [mut at, mut length] = [UNWRITTEN; 2];
    // SAFETY: the three slices and the two numbers are apart and outlive the call, which keeps none
    // of them.
    let number = unsafe {
        recomp_listing(
            file.as_ptr(),
            file.len(),
            work.as_mut_ptr(),
            work.len(),
            text.as_mut_ptr(),
            text.len(),
            &mut at,
            &mut length,
        )
    };
    (number, [at, length])
}

pub fn page(file: &[u8], page: u64, work: &mut [u32], text: &mut [u8]) -> (u32, [u64; 2]) {
    let [mut at, mut length] = [UNWRITTEN; 2];
    // SAFETY: the three slices and the two numbers are apart and outlive the call, which keeps none
    // of them.
    let number = unsafe {
        recomp_page(
            file.as_ptr(),
            file.len(),
            page,
            work.as_mut_ptr(),
            work.len(),
            text.as_mut_ptr(),
            text.len(),
            &mut at,
            &mut length,
        )
    };
    (number, [at, length])
}

pub fn pages(file: &[u8], first: u64, work: &mut [u32], text: &mut [u8]) -> (u32, [u64; 3]) {
    let [mut at, mut count, mut length] = [UNWRITTEN; 3];
    // SAFETY: the three slices and the three numbers are apart and outlive the call, which keeps
    // none of them.
    let number = unsafe {
        recomp_pages(
            file.as_ptr(),
            file.len(),
            first,
            work.as_mut_ptr(),
            work.len(),
            text.as_mut_ptr(),
            text.len(),
            &mut at,
            &mut count,
            &mut length,
        )
    };
    (number, [at, count, length])
}

/// What is handed over: the place, and the length of the sentence.
pub fn reason(file: &[u8], instruction: u64, text: &mut [u8]) -> (u32, [u64; 2]) {
    let [mut at, mut length] = [UNWRITTEN; 2];
    // SAFETY: the two slices and the two numbers are apart and outlive the call, which keeps none
    // of them.
    let number = unsafe {
        recomp_reason(
            file.as_ptr(),
            file.len(),
            instruction,
            text.as_mut_ptr(),
            text.len(),
            &mut at,
            &mut length,
        )
    };
    (number, [at, length])
}

/// What is handed over: the place, the instruction to go on with, the length of all lines.
pub fn reasons(file: &[u8], first: u64, text: &mut [u8]) -> (u32, [u64; 3]) {
    let [mut at, mut next, mut length] = [UNWRITTEN; 3];
    // SAFETY: the two slices and the three numbers are apart and outlive the call, which keeps none
    // of them.
    let number = unsafe {
        recomp_reasons(
            file.as_ptr(),
            file.len(),
            first,
            text.as_mut_ptr(),
            text.len(),
            &mut at,
            &mut next,
            &mut length,
        )
    };
    (number, [at, next, length])
}

/// What is handed over: the place, the unit's number, its length, the blocks done, the last mark.
pub fn measure(file: &[u8], max_bytes: u64, unit: u64, work: &mut [u32]) -> (u32, [u64; 5]) {
    let [mut at, mut number, mut length, mut done, mut last] = [UNWRITTEN; 5];
    // SAFETY: the two slices and the five numbers are apart and outlive the call, which keeps none
    // of them.
    let answer = unsafe {
        recomp_measure(
            file.as_ptr(),
            file.len(),
            max_bytes,
            unit,
            work.as_mut_ptr(),
            work.len(),
            &mut at,
            &mut number,
            &mut length,
            &mut done,
            &mut last,
        )
    };
    (answer, [at, number, length, done, last])
}

/// What was told of the unit: its number, its length, the blocks done, the last mark.
pub fn write(
    file: &[u8],
    max_bytes: u64,
    [unit, length, done, last]: [u64; 4],
    work: &mut [u32],
    text: &mut [u8],
) -> (u32, [u64; 1]) {
    let mut at = UNWRITTEN;
    // SAFETY: the three slices and the number are apart and outlive the call, which keeps none of
    // them.
    let number = unsafe {
        recomp_write(
            file.as_ptr(),
            file.len(),
            max_bytes,
            unit,
            length,
            done,
            last,
            work.as_mut_ptr(),
            work.len(),
            text.as_mut_ptr(),
            text.len(),
            &mut at,
        )
    };
    (number, [at])
}

pub fn units(
    file: &[u8],
    max_bytes: u64,
    first: u64,
    work: &mut [u32],
    text: &mut [u8],
    lengths: &mut [u64],
) -> (u32, [u64; 5]) {
    let [mut at, mut count, mut length, mut done, mut last] = [UNWRITTEN; 5];
    // SAFETY: the four slices and the five numbers are apart and outlive the call, which keeps none
    // of them.
    let number = unsafe {
        recomp_units(
            file.as_ptr(),
            file.len(),
            max_bytes,
            first,
            work.as_mut_ptr(),
            work.len(),
            text.as_mut_ptr(),
            text.len(),
            lengths.as_mut_ptr(),
            lengths.len(),
            &mut at,
            &mut count,
            &mut length,
            &mut done,
            &mut last,
        )
    };
    (number, [at, count, length, done, last])
}

pub fn lengths(
    file: &[u8],
    max_bytes: u64,
    first: u64,
    work: &mut [u32],
    lengths: &mut [u64],
) -> (u32, [u64; 4]) {
    let [mut at, mut count, mut done, mut last] = [UNWRITTEN; 4];
    // SAFETY: the three slices and the four numbers are apart and outlive the call, which keeps
    // none of them.
    let number = unsafe {
        recomp_lengths(
            file.as_ptr(),
            file.len(),
            max_bytes,
            first,
            work.as_mut_ptr(),
            work.len(),
            lengths.as_mut_ptr(),
            lengths.len(),
            &mut at,
            &mut count,
            &mut done,
            &mut last,
        )
    };
    (number, [at, count, done, last])
}

extern "C" {
    fn recomp_check(
        file: *const u8,
        file_len: usize,
        at: *mut u64,
        blocks: *mut u64,
        instructions: *mut u64,
    ) -> u32;

    fn recomp_exits(
        file: *const u8,
        file_len: usize,
        block: u64,
        at: *mut u64,
        count: *mut u64,
        first: *mut u64,
        second: *mut u64,
    ) -> u32;

    fn recomp_plan(
        file: *const u8,
        file_len: usize,
        work: *mut u32,
        work_len: usize,
        plan: *mut u32,
        plan_len: usize,
        at: *mut u64,
        blocks: *mut u64,
    ) -> u32;

    fn recomp_listing(
        file: *const u8,
        file_len: usize,
        work: *mut u32,
        work_len: usize,
        text: *mut u8,
        text_len: usize,
        at: *mut u64,
        length: *mut u64,
    ) -> u32;

    fn recomp_page(
        file: *const u8,
        file_len: usize,
        page: u64,
        work: *mut u32,
        work_len: usize,
        text: *mut u8,
        text_len: usize,
        at: *mut u64,
        length: *mut u64,
    ) -> u32;

    fn recomp_pages(
        file: *const u8,
        file_len: usize,
        first: u64,
        work: *mut u32,
        work_len: usize,
        text: *mut u8,
        text_len: usize,
        at: *mut u64,
        count: *mut u64,
        length: *mut u64,
    ) -> u32;

    fn recomp_reason(
        file: *const u8,
        file_len: usize,
        instruction: u64,
        text: *mut u8,
        text_len: usize,
        at: *mut u64,
        length: *mut u64,
    ) -> u32;

    fn recomp_reasons(
        file: *const u8,
        file_len: usize,
        first: u64,
        text: *mut u8,
        text_len: usize,
        at: *mut u64,
        next: *mut u64,
        length: *mut u64,
    ) -> u32;

    fn recomp_measure(
        file: *const u8,
        file_len: usize,
        max_bytes: u64,
        unit: u64,
        work: *mut u32,
        work_len: usize,
        at: *mut u64,
        number: *mut u64,
        length: *mut u64,
        done: *mut u64,
        last: *mut u64,
    ) -> u32;

    fn recomp_write(
        file: *const u8,
        file_len: usize,
        max_bytes: u64,
        unit: u64,
        length: u64,
        done: u64,
        last: u64,
        work: *mut u32,
        work_len: usize,
        text: *mut u8,
        text_len: usize,
        at: *mut u64,
    ) -> u32;

    fn recomp_units(
        file: *const u8,
        file_len: usize,
        max_bytes: u64,
        first: u64,
        work: *mut u32,
        work_len: usize,
        text: *mut u8,
        text_len: usize,
        lengths: *mut u64,
        lengths_len: usize,
        at: *mut u64,
        count: *mut u64,
        length: *mut u64,
        done: *mut u64,
        last: *mut u64,
    ) -> u32;

    fn recomp_lengths(
        file: *const u8,
        file_len: usize,
        max_bytes: u64,
        first: u64,
        work: *mut u32,
        work_len: usize,
        lengths: *mut u64,
        lengths_len: usize,
        at: *mut u64,
        count: *mut u64,
        done: *mut u64,
        last: *mut u64,
    ) -> u32;
}
