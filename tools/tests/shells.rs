//! Shells in a text, by its shape, and the interpreter in the place of a block, which is none.

use recomp_tools::shells::{printed, Front, Printed};

/// A function of a block alone: a shell in the middle, an instruction between, a shell at the end.
const LONE: &str = "\
uint32_t b_0200a000_t(const RtApi* a, void* m) {
    uint32_t* c = (uint32_t*)m;
    uint32_t pc; (void)pc;
    if (!a->guard(m, 0x0200a000u, 6u, 0x0123456789abcdefull)) \
{ c[15] = 0x0200a000u; return a->interp_one(m); }
    c[15] = 0x0200a000u;
    pc = a->interp_one(m); if (pc != 0x0200a003u) return pc;
    {
        c[1] = 1u;
    }
    a->tick(m, 3u);
    c[15] = 0x0200a004u;
    return a->interp_one(m);
}
";

/// A block that the interpreter has whole.
const WHOLE: &str = "\
uint32_t b_0300a000_a(const RtApi* a, void* m) {
    uint32_t* c = (uint32_t*)m;
    uint32_t pc; (void)pc;
    c[15] = 0x0300a000u; return a->interp_one(m);
}
";

/// Two blocks of a group: the first has a shell, both leave by setting PC without one.
const GROUP: &str = "\
static uint32_t g_08000000(const RtApi* a, void* m, uint32_t entry) {
    switch (entry) {
    case 0u: goto L_08000000_a;
    case 1u: goto L_08000008_a;
    default: return 0u;
    }
L_08000000_a:;
    a->tick(m, 1u);
    c[15] = 0x08000000u;
    pc = a->interp_one(m); if (pc != 0x08000004u) return pc;
    a->tick(m, 20u);
    c[15] = 0x08000008u;
    goto L_08000008_a;

L_08000008_a:;
    c[15] = 0x08000000u;
    if (a->chain_gate(m)) return 0x08000000u;
    goto L_08000000_a;

}

uint32_t b_08000000_a(const RtApi* a, void* m) { return g_08000000(a, m, 0u); }
uint32_t b_08000008_a(const RtApi* a, void* m) { return g_08000000(a, m, 1u); }
";

fn block(key: u32, front: Front, shells: &[u32], cycles: u64) -> Printed {
    Printed {
        key,
        front,
        shells: shells.to_vec(),
        cycles,
    }
}

#[test]
fn shapes() {
    let text = [LONE, WHOLE, GROUP].concat();
    let expected = [
        block(0x0200_a001, Front::Guard, &[0x0200_a000, 0x0200_a004], 3),
        block(0x0300_a000, Front::Interpreter, &[], 0),
        block(0x0800_0000, Front::Nothing, &[0x0800_0000], 21),
        block(0x0800_0008, Front::Nothing, &[], 0),
    ];
    assert_eq!(printed(&text), Ok(expected.to_vec()));
    assert_eq!(printed(""), Ok(vec![]));
}

/// Calls of the interpreter that are neither shells nor in the place of their block.
#[test]
fn other_shapes() {
    let changes = [
        // No address before the call, or not on a line of its own.
        ("    c[15] = 0x0200a004u;\n", ""),
        ("    c[15] = 0x0200a004u;\n", "    c[15] = 0x200a004u;\n"),
        ("    c[15] = 0x0200a004u;\n", "    c[15] = 0x0200a004u; \n"),
        ("0x0200a004u;\n    return", "0x0200a004u;\n\n    return"),
        ("0x0200a004u;\n    return", "0x0200a004u; return"),
        // A guard of another block, and one behind a shell.
        ("guard(m, 0x0200a000u", "guard(m, 0x0200a002u"),
        ("{ c[15] = 0x0200a000u;", "{ c[15] = 0x0200a002u;"),
        // A call that goes on in another way.
        ("if (pc != 0x0200a003u) return pc;", "if (pc) return pc;"),
        ("pc = a->interp_one(m);", "r = a->interp_one(m);"),
        // No block.
        ("uint32_t b_0200a000_t(", "uint32_t x_0200a000_t("),
        ("uint32_t b_0200a000_t(", "uint32_t b_0200a000_x("),
    ];
    for (old, new) in changes {
        assert_eq!(LONE.matches(old).count(), 1, "{old}");
        let text = LONE.replace(old, new);
        assert!(printed(&text).is_err(), "{old} {new}");
    }
    let twice = WHOLE.replace("    c[15]", "    a->tick(m, 1u);\n    c[15]");
    assert!(printed(&twice).is_err());
}
