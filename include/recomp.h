/* The calls of librecomp.a: block files to plans, exits, listings, pages, reasons and C units.
 *
 * `rt lib` in crates/recomp proves the library and writes out/librecomp.a there; lib/ keeps one
 * (`lib/archive take FILE`). What is said here in words is proved of every call and every input,
 * but for what is marked as not proved; the definitions are named at each call. What every call
 * leaves: `call_frame` in crates/call_frame/specs/Frame.antt; the numbers handed over: `numbers_of`
 * in Numbers.antt there.
 *
 * For all calls:
 * - The return value is 0, or the number of a refusal:
 *     1  the file has under 32 bytes
 *     2  its trailer counts over 65,536 blocks or over 1,048,576 instructions
 *     3  another rule of the trailer is broken
 *     4  block i: a rule of its record is broken, key order apart
 *     5  block i: its key (address plus 1 for Thumb) is not above that of the block before
 *     6  the blocks' instruction counts do not sum to the trailer's
 *     7  instruction i: a rule of its record is broken
 *     8  fewer than four work numbers for each block are lent
 *     9  there is no such block, page, unit or instruction
 *    10  the lent result is too short
 *    11  a value given for the unit is not the unit's
 *   The first that applies is given, in the order of the numbers but for 11, which comes after 9
 *   and before 10. A call gives those of them that can apply to it, and gives 1 to 7 exactly as
 *   recomp_check does.
 * - `*at` is i for 4, 5 and 7, counted from 0 through the file, else 0. The other numbers handed
 *   over are 0 on refusal. All of them are written on every return.
 * - Work numbers: the first 4 * blocks are 0 after success and after 9, 10 and 11, and are as they
 *   were after 1 to 8. What they hold before a call does not matter. Those after are never changed.
 * - A lent plan, text or slice of lengths is changed on success only, and only in its front, as far
 *   as the result reaches.
 * - Nothing is allocated, kept or read beyond what is lent.
 * - Not proved: calls with different buffers may run at the same time, and may share the file. No
 *   promise speaks of threads; it is so because a call keeps nothing and writes only what is lent.
 *
 * What is asked of a caller and cannot be tested by a call: each pointer is not null, is aligned
 * for its type and points to as many items as its length says (a length may be 0), and whatever a
 * call may write overlaps nothing else that it is handed.
 */
#ifndef RECOMP_H
#define RECOMP_H

#include <stddef.h>
#include <stdint.h>

#ifdef __cplusplus
extern "C" {
#endif

/* Whether the file is accepted: refusals 1 to 7, or the number of its blocks and instructions.
 * Definition: `check_call` in crates/call_check/specs/Calls.antt, over `parse` in
 * crates/file_blocks/specs/Parse.antt. */
uint32_t recomp_check(const uint8_t *file, size_t file_len,
                      uint64_t *at, uint64_t *blocks, uint64_t *instructions);

/* The keys that block `block` (from 0) can statically go to: `*count` of them, 0 to 2, a branch's
 * target before the fall-through; `*first` and `*second` are 0 where there is none.
 * Refusals 1 to 7 and 9. Definition: `exits_call` in crates/call_exits/specs/Calls.antt. */
uint32_t recomp_exits(const uint8_t *file, size_t file_len, uint64_t block,
                      uint64_t *at, uint64_t *count, uint64_t *first, uint64_t *second);

/* The plan: for each of the `*blocks` blocks its group and its number in the file, both from 0, in
 * the order of emission. It needs 2 * blocks numbers.
 * Refusals 1 to 8 and 10. Definition: `plan_call` in crates/call_plan/specs/Calls.antt. */
uint32_t recomp_plan(const uint8_t *file, size_t file_len, uint32_t *work, size_t work_len,
                     uint32_t *plan, size_t plan_len, uint64_t *at, uint64_t *blocks);

/* The listing: a header, then a line for each block in file order with key, group and exits. It is
 * `*length` bytes of ASCII, with no zero byte after it.
 * Refusals 1 to 8 and 10. Definition: `listing_call` in crates/call_listing/specs/Calls.antt. */
uint32_t recomp_listing(const uint8_t *file, size_t file_len, uint32_t *work, size_t work_len,
                        uint8_t *text, size_t text_len, uint64_t *at, uint64_t *length);

/* Pages: the plan for print, up to 60 blocks a page, in the order of emission. They are numbered
 * from 1; the last has the blocks that are left, and a file without blocks has no page. Every line
 * has 64 characters and a newline. The first of a page has its number, in decimal, at the right;
 * each of the others has, for a block:
 *     columns 1 to 8    its key, as 8 lower-case hexadecimal digits
 *     columns 10 to 15  its group, from 0, in decimal at the right
 *     columns 17 to 22  how many instructions it has, likewise
 *     columns 24 to 40  the keys that it can statically go to, with a blank between two of them
 * and blanks elsewhere. So a page with n blocks has 65 * (1 + n) bytes of ASCII, at most 3,965, and
 * all pages of a file have 65 * (pages + blocks). It is proved, as a promise of both calls, that
 * each line has its width, that no field is cut, and that the pages have each block of the plan
 * once, in the order of emission: `PageClaims` in crates/call_pages/specs/Claims.antt. */

/* The text of page `page`: `*length` bytes, with no zero byte after it.
 * Refusals 1 to 10; 9 for page 0 and for every page above the last. Definition: `page_call` in
 * crates/call_pages/specs/Calls.antt. */
uint32_t recomp_page(const uint8_t *file, size_t file_len, uint64_t page,
                     uint32_t *work, size_t work_len, uint8_t *text, size_t text_len,
                     uint64_t *at, uint64_t *length);

/* The texts of pages `first`, `first` + 1 and so on, one after another in the front of `text`: as
 * many whole pages as fit. `*count` is how many they are, `*length` the bytes of all their texts. A
 * call with `first` + `*count` gives those after, or 9 where there are none.
 * Refusals 1 to 10; 9: there is no page `first`; 10: page `first` does not fit. Definition:
 * `pages_call` in crates/call_pages/specs/Calls.antt. */
uint32_t recomp_pages(const uint8_t *file, size_t file_len, uint64_t first,
                      uint32_t *work, size_t work_len, uint8_t *text, size_t text_len,
                      uint64_t *at, uint64_t *count, uint64_t *length);

/* Reasons: where the text of a block does not lower an instruction to C, it has a shell for it, a
 * call of the interpreter. An instruction with a shell has a sentence that says why: its address as
 * 8 lower-case hexadecimal digits, its kind (Alu, Mul, Swap, Bx, ThumbBlHigh, ThumbBlLow, Mem,
 * BlockMem, Mrs, MsrReg, MsrImm, Swi or Undefined; MulLong and Branch never have a shell) and one
 * reason, with a blank between two of them. The reasons, of which the first that holds is given:
 *     unpaired half                    ThumbBlHigh that is not right before a ThumbBlLow of its
 *                                      block, or a ThumbBlLow not right after a ThumbBlHigh
 *     conditional exit                 Bx, or the pop of PC, under another condition than Al
 *     BIOS exit                        Bx, or the pop of PC, in a block of the BIOS
 *     PC as result or stored register  Alu, compares among them, Mul or Mem with rd 15
 *     register-given shift             an operand of Alu or offset of Mem shifted by a register
 *     rotate with extend in an offset  an offset of Mem shifted by Ror 0
 *     user registers                   BlockMem with s_bit
 *     empty list                       BlockMem that lists no register
 *     PC as base                       BlockMem with rn 15
 *     PC in a loaded list              BlockMem that loads PC, the pop under Al apart
 *     no native form                   Swap, Mrs, MsrReg, MsrImm, Swi or Undefined
 * The pop of PC is a BlockMem that loads PC upwards from its base, with writeback, without s_bit
 * and with another base than PC. A sentence is ASCII, of at most 8 + 1 + 11 + 1 + 31 = 52 bytes.
 * An instruction that is lowered to C has none, nor has one behind an unconditional native exit of
 * its block, which is dropped, nor one of a block outside ROM and BIOS without code bytes, which is
 * left whole to the interpreter. It is proved, as a promise of both calls, that an instruction has
 * a sentence exactly if its shell stands in the code of its block after the guard, that the reason
 * is the first that holds, and that a reader of the sentence gets address, kind and reason back:
 * `ReasonClaims` in crates/claim_reasons/specs/Claims.antt. */

/* The sentence of instruction `instruction`, counted from 0 through the file: `*length` bytes, with
 * neither newline nor zero byte after it. `*length` is 0 where the instruction has none, and that
 * is never refused with 10.
 * Refusals 1 to 7, 9 and 10. Definition: `reason_call` in crates/call_reasons/specs/Calls.antt. */
uint32_t recomp_reason(const uint8_t *file, size_t file_len, uint64_t instruction,
                       uint8_t *text, size_t text_len, uint64_t *at, uint64_t *length);

/* The sentences of instruction `first` and of those after it, in file order and with a newline
 * after each, one after another in the front of `text`: as many whole lines as fit, up to the first
 * that does not. `*length` is the bytes of all these lines, `*next` the number of the instruction
 * whose line did not fit or, where none is left, the number of all instructions. A call with
 * `*next` as `first` gives those after, or 9 where there are none.
 * Refusals 1 to 7, 9 and 10; 9: there is no instruction `first`; 10: there are lines, and the first
 * does not fit. Definition: `reasons_call` in crates/call_reasons/specs/Calls.antt. */
uint32_t recomp_reasons(const uint8_t *file, size_t file_len, uint64_t first,
                        uint8_t *text, size_t text_len,
                        uint64_t *at, uint64_t *next, uint64_t *length);

/* Units: the C text is cut into units, each closed once it has `max_bytes` bytes after a group.
 * They are numbered from 0. Every accepted file has a last unit, at every size; refusal 9 is given
 * for every number above that unit's. Of the units at every size it is proved, as a promise of
 * recomp_write and of recomp_units, that along every way through them at most 8,192 instructions
 * are carried out between two calls of the chain gate in a group of several blocks, that a block
 * alone in its group carries out no instruction twice, and that native code of a block outside
 * ROM and BIOS is reached only after the guard said yes to it: `Demand3Of` in
 * crates/claim_ways/specs/Demand3.antt; that each block has one function, and such a way from it
 * through the text of every record that it prints: `Demand3AppliesOf` in
 * crates/claim_ways/specs/Applies.antt; and that the text of each block, read by C99, does what
 * the ARM manual says of the instructions that are lowered to C, and what interp_one does for the
 * others (supposed to be a step of the machine that leaves in c[15] the address of the key which
 * it answers), but for the records that docs/DIFFERENCES.md names as differences from the manual
 * or as left out and, as a whole, the blocks that hold one: `MeaningOf` in
 * crates/claim_meaning/specs/Meaning.antt; and that every execution of a block's function by C99 is
 * such a way, that from one state there is one, and that, where no block of its group holds such a
 * record, it carries out blocks of the group one after the other as their text means.
 * crates/claim_units/specs/Claims.antt lists all.
 * Not proved, as no promise speaks of time: each call goes through the file from its start, so its
 * time does not depend on earlier calls. It measures the units before the first that is asked for.
 * recomp_units, with the text of all units of a file lent, measures each at most once and writes it
 * once; recomp_measure and recomp_write each measure the unit that is asked for too. */

/* One unit is measured, then written. What is told of unit `unit` before it is written: `*number`
 * is its number, `*length` the bytes of its text, `*done` the number of blocks in it and in all
 * units before it, `*last` 1 for the last unit and 0 for the others. No text is lent. Refusals 1 to
 * 9. Definition: `measure_call` in crates/call_unit/specs/Calls.antt. Before there were these two,
 * one call, recomp_unit, did both; docs/changes/CR-03.md says what its callers change. */
uint32_t recomp_measure(const uint8_t *file, size_t file_len, uint64_t max_bytes, uint64_t unit,
                        uint32_t *work, size_t work_len, uint64_t *at, uint64_t *number,
                        uint64_t *length, uint64_t *done, uint64_t *last);

/* The text of unit `unit`, given back what recomp_measure told of it: `length` bytes of UTF-8, with
 * no zero byte after it. The three values `length`, `done` and `last` are worked out afresh for
 * this file, size and unit. 11: one of them differs from what was given, as a `last` of 2 always
 * does; it is tested after 9 and before 10. Equal values are all that is asked: with an answer kept
 * from another file or size, whose three values are those of the unit that it names here, the unit
 * of this file and size is written.
 * Refusals 1 to 11. Definition: `write_call` in crates/call_unit/specs/Calls.antt.
 * Where recomp_measure returns 0, recomp_write with what it told, on the same file and size, leaves
 * what one call would, 8 and 10 included. Lent the same work numbers as recomp_measure, it gives 11
 * with anything else for that unit, and is refused alike where recomp_measure is refused. This is
 * proved, as a promise of both calls: `MeasureThenWrite` in crates/call_unit/specs/Claims.antt;
 * `unit_call` in Calls.antt there is that one call, as document 01 asks for the unit. */
uint32_t recomp_write(const uint8_t *file, size_t file_len, uint64_t max_bytes, uint64_t unit,
                      uint64_t length, uint64_t done, uint64_t last, uint32_t *work,
                      size_t work_len, uint8_t *text, size_t text_len, uint64_t *at);

/* The texts of units `first`, `first` + 1 and so on, one after another in the front of `text`, and
 * the length of each in the front of `lengths`: as many whole units as fit both. `*count` is how
 * many they are, `*length` the bytes of all their texts; `*done` and `*last` are as above, of the
 * last of them. Where `*last` is 0, a call with `first` + `*count` gives those after.
 * Refusals 1 to 10; 9: there is no unit `first`; 10: unit `first` does not fit, or there is no room
 * for its length. Definition: `units_call` in crates/call_units/specs/Calls.antt. */
uint32_t recomp_units(const uint8_t *file, size_t file_len, uint64_t max_bytes, uint64_t first,
                      uint32_t *work, size_t work_len, uint8_t *text, size_t text_len,
                      uint64_t *lengths, size_t lengths_len, uint64_t *at, uint64_t *count,
                      uint64_t *length, uint64_t *done, uint64_t *last);

/* The lengths alone, of as many units from `first` on as there is room for: what has to be lent to
 * recomp_units. There are at most as many units as blocks and one more. The numbers are those of
 * recomp_units, without the bytes of all. Refusals 1 to 10; 10: there is no room for a length.
 * Definition: `lengths_call` in crates/call_units/specs/Calls.antt. */
uint32_t recomp_lengths(const uint8_t *file, size_t file_len, uint64_t max_bytes, uint64_t first,
                        uint32_t *work, size_t work_len, uint64_t *lengths, size_t lengths_len,
                        uint64_t *at, uint64_t *count, uint64_t *done, uint64_t *last);

#ifdef __cplusplus
}
#endif

#endif
