/* A stub runtime that emitted units are linked with: it calls every function of the block table
   some times and prints, for each, its key and a digest of all that came of the calls. */
#include "units.h"
#include <stdio.h>

/* Calls of each function, which differ in registers and in what the stubs answer. */
enum { TURNS = 12 };

typedef struct {
    uint32_t c[17]; /* r0 to r15 and CPSR, where units look for them */
    uint32_t key;
    uint32_t turn;
    uint32_t gates;
    uint64_t digest;
} Machine;

static uint64_t mixed(uint64_t digest, uint64_t number) {
    digest = (digest ^ number) * 0x9e3779b97f4a7c15ull;
    return digest ^ (digest >> 29);
}

static void note(void* m, uint64_t what, uint64_t number) {
    Machine* machine = (Machine*)m;
    machine->digest = mixed(mixed(machine->digest, what), number);
}

/* Goes on after the instruction, or in one turn of four leads elsewhere. */
static uint32_t interp_one(void* m) {
    Machine* machine = (Machine*)m;
    uint32_t thumb = machine->key & 1u;
    note(m, 1, machine->c[15]);
    if (machine->turn % 4u == 3u) return 0x12345679u;
    return (machine->c[15] + (thumb ? 2u : 4u)) | thumb;
}

static uint32_t read_any(void* m, uint64_t what, uint32_t address) {
    note(m, what, address);
    return (uint32_t)mixed(address, what);
}
static uint32_t read8(void* m, uint32_t address) { return read_any(m, 2, address) & 0xffu; }
static uint32_t read16(void* m, uint32_t address) { return read_any(m, 3, address) & 0xffffu; }
static uint32_t read32(void* m, uint32_t address) { return read_any(m, 4, address); }

static void write_any(void* m, uint64_t what, uint32_t address, uint32_t value) {
    note(m, what, address);
    note(m, what, value);
}
static void write8(void* m, uint32_t address, uint32_t value) { write_any(m, 5, address, value & 0xffu); }
static void write16(void* m, uint32_t address, uint32_t value) { write_any(m, 6, address, value & 0xffffu); }
static void write32(void* m, uint32_t address, uint32_t value) { write_any(m, 7, address, value); }

static void tick(void* m, uint32_t cycles) { note(m, 8, cycles); }

/* No in one turn of three. */
static uint32_t guard(void* m, uint32_t address, uint32_t length, uint64_t hash) {
    Machine* machine = (Machine*)m;
    note(m, 9, address);
    note(m, length, hash);
    return machine->turn % 3u != 2u;
}

/* Stops at the consultation that the turn has the number of, so that every loop ends. */
static uint32_t chain_gate(void* m) {
    Machine* machine = (Machine*)m;
    note(m, 10, machine->gates);
    return machine->gates++ >= machine->turn;
}

static uint64_t call(const RcgBlock* block, uint32_t turn) {
    static const RtApi api = {
        interp_one, read8, read16, read32, write8, write16, write32, tick, guard, chain_gate,
    };
    Machine machine = { { 0 }, 0, 0, 0, 0 };
    uint32_t n;
    machine.key = block->key;
    machine.turn = turn;
    for (n = 0; n < 17; n++) machine.c[n] = (uint32_t)mixed(block->key, 100u * turn + n);
    note(&machine, 11, block->fn(&api, &machine));
    for (n = 0; n < 17; n++) note(&machine, 12, machine.c[n]);
    return machine.digest;
}

int main(void) {
    uint64_t i;
    for (i = 0; i < rcg_block_count; i++) {
        uint64_t digest = 0;
        uint32_t turn;
        for (turn = 0; turn < TURNS; turn++) digest = mixed(digest, call(&rcg_blocks[i], turn));
        printf("%08lx %016llx\n", (unsigned long)rcg_blocks[i].key, (unsigned long long)digest);
    }
    return 0;
}
