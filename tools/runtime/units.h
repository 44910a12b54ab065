/* What every unit declares, for the runtimes that units are linked with. */
#include <stdint.h>

typedef struct {
    uint32_t (*interp_one)(void*);
    uint32_t (*read8)(void*, uint32_t);
    uint32_t (*read16)(void*, uint32_t);
    uint32_t (*read32)(void*, uint32_t);
    void (*write8)(void*, uint32_t, uint32_t);
    void (*write16)(void*, uint32_t, uint32_t);
    void (*write32)(void*, uint32_t, uint32_t);
    void (*tick)(void*, uint32_t);
    uint32_t (*guard)(void*, uint32_t, uint32_t, uint64_t);
    uint32_t (*chain_gate)(void*);
} RtApi;
typedef struct { uint32_t key; uint32_t (*fn)(const RtApi*, void*); } RcgBlock;

extern const RcgBlock rcg_blocks[];
extern const uint64_t rcg_block_count;
