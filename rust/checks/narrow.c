/* Asks an index in the caller's memory about addresses whose part has more than 32 bits, which a size_t of 32 bits does not
 * hold: the answers have to be those of a search without an index. The status is 0 if they are. */
#include "ipnetwork.h"
#include <stdio.h>

enum { COUNT = 256, PARTS = 4 * COUNT };

static ipnetwork_v6 blocks[COUNT];
static uint32_t parts[PARTS];

/* The address with these first 64 bits. */
static void write_half(uint8_t address[16], uint64_t half) {
    for (int place = 0; place < 16; place++) {
        address[place] = place < 8 ? (uint8_t)(half >> (56 - 8 * place)) : 0;
    }
}

int main(void) {
    const uint64_t first = 0x20010db800000000u;
    long asked = 0;
    for (int each = 0; each < COUNT; each++) {
        write_half(blocks[each].address, first + 2 * (uint64_t)each);
        blocks[each].prefix = 64;
    }
    if (ipnetwork_v6_index_make(blocks, COUNT, parts, PARTS)) return 1;
    for (int high = 0; high < 33; high++) {
        for (uint64_t low = 0; low < 2 * COUNT + 3; low++, asked++) {
            uint8_t address[16], by_index = 2, by_set = 2;
            write_half(address, first + (high == 0 ? 0 : (uint64_t)1 << (31 + high)) + low);
            if (ipnetwork_v6_index_contains(blocks, COUNT, parts, PARTS, address, &by_index) ||
                ipnetwork_v6_index_contains(blocks, COUNT, NULL, 0, address, &by_set)) return 1;
            if (by_index != by_set || by_set != (high == 0 && low < 2 * COUNT && low % 2 == 0)) {
                printf("2^%d + %u: %d by the index, %d without\n", high ? 31 + high : 0, (unsigned)low, by_index, by_set);
                return 1;
            }
        }
    }
    printf("C: %ld answers of an index past 32 bits are right\n", asked);
    return 0;
}
