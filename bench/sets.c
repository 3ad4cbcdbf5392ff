/* Milliseconds that the library takes to aggregate a million random networks, and for the union, the intersection and
 * the difference of two sets of a million of them each: the least of several runs. A row has the family, the call, the
 * time, and how many blocks come out. `bench/sets.rs` does the same with the same networks by bare numbers. */
#define _POSIX_C_SOURCE 200809L
#include "../bindings/c/ipnetwork.h"

#include <stdio.h>
#include <stdlib.h>
#include <string.h>
#include <time.h>

enum { COUNT = 1000000, ROOM = 4 * COUNT };

static uint64_t state;

static uint64_t next(void) {
    state ^= state << 13;
    state ^= state >> 7;
    state ^= state << 17;
    return state;
}

static double now(void) {
    struct timespec time;
    clock_gettime(CLOCK_PROCESS_CPUTIME_ID, &time);
    return (double)time.tv_sec * 1e3 + (double)time.tv_nsec / 1e6;
}

static void put(uint8_t *octets, uint64_t number, size_t width) {
    for (size_t at = 0; at < width; at++)
        octets[at] = (uint8_t)(number >> (8 * (width - 1 - at)));
}

static void make_v4(ipnetwork_v4 *network) {
    uint64_t number = next();
    put(network->address, number >> 32, 4);
    network->prefix = (uint8_t)(24 + number % 9);
}

static void make_v6(ipnetwork_v6 *network) {
    put(network->address, UINT64_C(0x20010d) << 40 | next() >> 24, 8);
    uint64_t number = next();
    put(network->address + 8, number, 8);
    network->prefix = (uint8_t)(48 + number % 17);
}

static void must(ipnetwork_fault fault) {
    if (fault != IPNETWORK_OK)
        abort();
}

#define MEASURE(family)                                                                                                \
    static ipnetwork_##family made_##family[COUNT], one_##family[COUNT], other_##family[COUNT], room_##family[ROOM];   \
    static void aggregate_##family(ipnetwork_##family *set, uint64_t seed, size_t *blocks, double *least) {            \
        state = seed;                                                                                                  \
        for (size_t i = 0; i < COUNT; i++)                                                                             \
            make_##family(&made_##family[i]);                                                                          \
        memcpy(set, made_##family, sizeof made_##family);                                                              \
        double start = now();                                                                                          \
        must(ipnetwork_##family##_aggregate(set, COUNT, blocks));                                                      \
        double taken = now() - start;                                                                                  \
        *least = taken < *least ? taken : *least;                                                                      \
    }                                                                                                                  \
    static void measure_##family(int runs) {                                                                           \
        double least[4] = {1e300, 1e300, 1e300, 1e300};                                                                \
        size_t counts[4] = {0, 0, 0, 0}, others = 0;                                                                   \
        for (int run = 0; run < runs; run++) {                                                                         \
            aggregate_##family(other_##family, 2, &others, &least[0]);                                                 \
            aggregate_##family(one_##family, 1, &counts[0], &least[0]);                                                \
            double times[4];                                                                                           \
            times[0] = now();                                                                                          \
            must(ipnetwork_##family##_union(one_##family, counts[0], other_##family, others, room_##family, ROOM,      \
                                            &counts[1]));                                                              \
            times[1] = now();                                                                                          \
            must(ipnetwork_##family##_intersection(one_##family, counts[0], other_##family, others, room_##family,     \
                                                   ROOM, &counts[2]));                                                 \
            times[2] = now();                                                                                          \
            must(ipnetwork_##family##_difference(one_##family, counts[0], other_##family, others, room_##family, ROOM, \
                                                 &counts[3]));                                                         \
            times[3] = now();                                                                                          \
            for (int row = 0; row < 3; row++)                                                                          \
                if (times[row + 1] - times[row] < least[row + 1])                                                      \
                    least[row + 1] = times[row + 1] - times[row];                                                      \
        }                                                                                                              \
        static const char *names[4] = {"aggregate", "union", "intersection", "difference"};                            \
        for (int row = 0; row < 4; row++)                                                                              \
            printf(#family " %s %.3f %zu\n", names[row], least[row], counts[row]);                                     \
    }

MEASURE(v4)
MEASURE(v6)

int main(int count, char **words) {
    int runs = count > 1 ? atoi(words[1]) : 5;
    measure_v4(runs);
    measure_v6(runs);
    return 0;
}
