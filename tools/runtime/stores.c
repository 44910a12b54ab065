/* A stub runtime that emitted units are linked with: it calls every function of the block table
   once, from the same registers, and prints a line for each: its key, ADDRESS=WORD for each store,
   and each register but r15 that it changed, and CPSR, with what it became. */
#include "units.h"
#include <stdio.h>
#include <stdlib.h>

/* What a store of words does not call. */
static uint32_t called(const char* name) {
    fprintf(stderr, "%s was called\n", name);
    exit(1);
    return 0;
}
static uint32_t interp_one(void* m) { (void)m; return called("interp_one"); }
static uint32_t read8(void* m, uint32_t a) { (void)m; (void)a; return called("read8"); }
static uint32_t read16(void* m, uint32_t a) { (void)m; (void)a; return called("read16"); }
static uint32_t read32(void* m, uint32_t a) { (void)m; (void)a; return called("read32"); }
static void write8(void* m, uint32_t a, uint32_t v) { (void)m; (void)a; (void)v; called("write8"); }
static void write16(void* m, uint32_t a, uint32_t v) {
    (void)m; (void)a; (void)v;
    called("write16");
}
static uint32_t guard(void* m, uint32_t a, uint32_t n, uint64_t h) {
    (void)m; (void)a; (void)n; (void)h;
    return called("guard");
}
static uint32_t chain_gate(void* m) { (void)m; return called("chain_gate"); }

static void write32(void* m, uint32_t address, uint32_t value) {
    (void)m;
    printf(" %08lx=%08lx", (unsigned long)address, (unsigned long)value);
}
static void tick(void* m, uint32_t cycles) { (void)m; (void)cycles; }

/* r0 to r15, and CPSR, of which Z alone is set. */
static uint32_t at_first(uint32_t r) { return r < 16u ? 0x02000100u + 0x10u * r : 0x40000000u; }

int main(void) {
    static const RtApi api = {
        interp_one, read8, read16, read32, write8, write16, write32, tick, guard, chain_gate,
    };
    uint64_t i;
    for (i = 0; i < rcg_block_count; i++) {
        uint32_t c[17];
        uint32_t r;
        for (r = 0; r < 17; r++) c[r] = at_first(r);
        printf("%08lx", (unsigned long)rcg_blocks[i].key);
        rcg_blocks[i].fn(&api, c);
        for (r = 0; r < 15; r++) {
            if (c[r] != at_first(r)) printf(" r%lu=%08lx", (unsigned long)r, (unsigned long)c[r]);
        }
        if (c[16] != at_first(16)) printf(" cpsr=%08lx", (unsigned long)c[16]);
        printf("\n");
    }
    return 0;
}
