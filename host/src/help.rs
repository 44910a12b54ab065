//! The texts of --help.

pub const RECOMP: &str = "\
Translates block files (decoded ARM and Thumb blocks) to C units.

usage: recomp COMMAND ...

  recomp units FILE -o DIR [OPTIONS]   write the C units
  recomp measure FILE [UNIT] [OPTION]  print how long the units will be
  recomp check FILE                    say whether the file is accepted
  recomp plan FILE                     print which blocks are emitted together
  recomp page FILE [NUMBER]            print the plan by pages of 60 blocks
  recomp exits FILE [BLOCK]            print where blocks can statically go
  recomp listing FILE                  print key, group and exits of each block
  recomp reasons FILE [INSTRUCTION]    print why instructions go to the interpreter
  recomp reasons FILE --summary        print how many do, and how many go native
  recomp verify DIR                    say whether units are as they were written

FILE is - for standard input. `recomp COMMAND --help` says more, `recomp --version` the version.
Exit status: 0 done, 1 refused file (`refused N at I` and the rule) or units that are not as they
were written, 2 any other failure.
";

pub const UNITS: &str = "\
Writes the C units of a block file as unit_000.c, unit_001.c and so on.

usage: recomp units FILE -o DIR [--unit-size BYTES] [--memory BYTES]

  FILE               a block file, or - for standard input
  -o DIR             the folder of the units, which is made if there is none
  --unit-size BYTES  close a unit once it has so many bytes (1M unless given; K is 1024, M is 1024K)
  --memory BYTES     have text of so many bytes made at a time, or of one unit that is longer
                     (1024M unless given); with all text at a time the units are made once, else
                     those before are measured again each time

Nothing is written for a refused file, nor where the disk has no room for all units, which is
reserved first. DIR is locked meanwhile: a second run in it fails at once. units.txt, which `recomp
verify` reads, is removed before the first unit is written and is there again once all units have
their names; a run that ends early leaves none. Files of DIR that are named like further units, left
by an older run, are removed, and no others but the .tmp files of a run that was interrupted.
";

pub const MEASURE: &str = "\
Prints how many bytes the C units of a block file will have, and writes nothing: for whoever
reserves disk before `recomp units` writes them.

usage: recomp measure FILE [UNIT] [--unit-size BYTES]

  FILE               a block file, or - for standard input
  UNIT               the number of a unit, from 0; all units unless given
  --unit-size BYTES  close a unit once it has so many bytes (1M unless given; K is 1024, M is 1024K)

The size has to be that which the units will be written with. Of all units there is a line for each,
with number and length, then the totals as `recomp units` will print them; units.txt, which it
writes too, is not counted, and has at most 128 bytes for each unit and 256 more. Of one unit there
are number, length, how many blocks it and all units before it have, and 1 if it is the last unit, 0
if not.
";

pub const CHECK: &str = "\
Says whether a block file is accepted, and how many blocks and instructions it has.

usage: recomp check FILE

  FILE  a block file, or - for standard input
";

pub const PLAN: &str = "\
Prints the plan of a block file: group and block, both from 0, in the order of emission.

usage: recomp plan FILE

  FILE  a block file, or - for standard input
";

pub const PAGE: &str = "\
Prints the plan of a block file by pages: up to 60 blocks each, in the order of emission. A page
begins with a line for its number and has one for each block: its key (the address, plus 1 for
Thumb), its group, how many instructions it has, and the keys that it can statically go to. Every
line has 64 characters.

usage: recomp page FILE [NUMBER]

  FILE    a block file, or - for standard input
  NUMBER  the number of a page, from 1; all pages unless given

A file without blocks has no page: nothing is printed, and every NUMBER is refused.
";

pub const EXITS: &str = "\
Prints the keys that blocks can statically go to, `-` for none. A key is the address, plus 1 for
Thumb, in hexadecimal.

usage: recomp exits FILE [BLOCK]

  FILE   a block file, or - for standard input
  BLOCK  the number of a block, from 0; all blocks unless given
";

pub const LISTING: &str = "\
Prints a line for each block of a block file: its key (the address, plus 1 for Thumb), its group,
and the keys that it can statically go to, `-` for none.

usage: recomp listing FILE

  FILE  a block file, or - for standard input
";

pub const REASONS: &str = "\
Prints why instructions go to the interpreter: a line for each that has a shell of its own in the C
text, in file order, with its address in hexadecimal, its kind and one reason.

usage: recomp reasons FILE [INSTRUCTION]
       recomp reasons FILE --summary

  FILE         a block file, or - for standard input
  INSTRUCTION  the number of an instruction, from 0 through the file; all instructions unless given
  --summary    print counts in place of the lines, each with its percentage of all instructions

An instruction that is named and has no shell of its own gets a line on standard error that says
why, and nothing is printed. The reasons, of which the first that holds is given:

  unpaired half                    a ThumbBlHigh not right before a ThumbBlLow, or the reverse
  conditional exit                 a Bx, or a pop of PC, under another condition than Al
  BIOS exit                        a Bx, or a pop of PC, in the BIOS
  PC as result or stored register  an Alu (a compare too), Mul or Mem with rd 15
  register-given shift             an operand of Alu or an offset of Mem shifted by a register
  rotate with extend in an offset  an offset of Mem with Ror 0
  user registers                   a BlockMem with the S bit
  empty list                       a BlockMem that lists no register
  PC as base                       a BlockMem with base 15
  PC in a loaded list              a BlockMem that loads PC otherwise than by a pop
  no native form                   Swap, Mrs, MsrReg, MsrImm, Swi, Undefined

A pop of PC is a BlockMem that loads PC upwards from another base than PC, with writeback and
without the S bit.

The summary has a line for each number: the number, its percentage (`-` where there are no
instructions), and what it counts. First what becomes of the instructions: native, those lowered to
C; shell, those with a line here; deferred, those in blocks outside ROM and BIOS without code bytes,
which are left whole to the interpreter; dropped, those behind an unconditional native exit of their
block; all, the sum of these. Then the lines of each reason and kind that there are.
";

pub const VERIFY: &str = "\
Says whether the units in a folder are those that `recomp units` wrote there, by length and SHA-256.

usage: recomp verify DIR

  DIR  the folder of the units

Exit status: 0 they are. 1 they are not: the line names the first unit that is missing, longer,
shorter or different, or that units.txt does not have. 2 there is no units.txt, so that the last run
did not end, or something cannot be read.
";
