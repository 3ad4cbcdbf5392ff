/* Look-ups of the longest prefix by `rte_lpm` of DPDK, with the routes and the addresses of `bench/look_ups.rt.txt` and
 * `bench/dir_24_8.rs`, one by one and by its call for many at once. With 900,000 routes it is not asked: to add a route
 * it goes over those of the same prefix length. */
#include <rte_eal.h>
#include <rte_lpm.h>

#include <stdio.h>
#include <stdlib.h>
#include <time.h>

enum { ASKED = 1000000, MOST = 100000, AT_ONCE = 64 };

static uint32_t addresses[ASKED], networks[MOST];
static uint8_t prefixes[MOST];

static uint64_t next(uint64_t state) {
    state ^= state << 13;
    state ^= state >> 7;
    return state ^ state << 17;
}

/* Prefix lengths like those of the Internet's routes. */
static uint8_t routed(uint64_t draw, uint64_t state) {
    if (draw < 60)
        return 24;
    if (draw < 72)
        return (uint8_t)(22 + state % 2);
    if (draw < 90)
        return (uint8_t)(18 + state % 4);
    return (uint8_t)(draw < 99 ? 12 + state % 6 : 25 + state % 8);
}

static uint32_t hosts(uint8_t prefix) { return prefix == 32 ? 0 : UINT32_MAX >> prefix; }

static void make(size_t count) {
    uint64_t state = 88172645463325252u;
    for (size_t i = 0; i < count; i++) {
        state = next(state);
        uint64_t draw = (state >> 20) % 100;
        state = next(state);
        networks[i] = (uint32_t)(state >> 32);
        prefixes[i] = routed(draw, state);
    }
    state = 1234567890123u;
    for (size_t i = 0; i < ASKED; i++) {
        state = next(state);
        uint32_t random = (uint32_t)(state >> 32);
        state = next(state);
        size_t at = (size_t)(state >> 16) % count;
        addresses[i] = state & 1 ? networks[at] ^ (random & hosts(prefixes[at])) : random;
    }
}

static double now(void) {
    struct timespec time;
    clock_gettime(CLOCK_MONOTONIC, &time);
    return (double)time.tv_sec * 1e9 + (double)time.tv_nsec;
}

static uint64_t one_by_one(struct rte_lpm *lpm) {
    uint64_t sum = 0;
    for (size_t i = 0; i < ASKED; i++) {
        uint32_t found;
        if (rte_lpm_lookup(lpm, addresses[i], &found) == 0)
            sum += found;
    }
    return sum;
}

static uint64_t at_once(struct rte_lpm *lpm) {
    uint64_t sum = 0;
    uint32_t found[AT_ONCE];
    for (size_t i = 0; i < ASKED; i += AT_ONCE) {
        rte_lpm_lookup_bulk(lpm, addresses + i, found, AT_ONCE);
        for (size_t at = 0; at < AT_ONCE; at++)
            if (found[at] & RTE_LPM_LOOKUP_SUCCESS)
                sum += found[at] & 0xffffff;
    }
    return sum;
}

static void measure(size_t count) {
    struct rte_lpm_config config = {.max_rules = MOST, .number_tbl8s = 4096, .flags = 0};
    struct rte_lpm *lpm = rte_lpm_create("routes", SOCKET_ID_ANY, &config);
    if (lpm == NULL)
        exit(1);
    make(count);
    for (size_t i = 0; i < count; i++)
        if (rte_lpm_add(lpm, networks[i], prefixes[i], (uint32_t)i) != 0)
            exit(1);
    double least[2] = {1e300, 1e300};
    uint64_t sums[2] = {0, 0};
    for (int run = 0; run < 9; run++) {
        double start = now();
        sums[0] = one_by_one(lpm);
        double middle = now();
        sums[1] = at_once(lpm);
        double end = now();
        least[0] = middle - start < least[0] ? middle - start : least[0];
        least[1] = end - middle < least[1] ? end - middle : least[1];
    }
    /* Of its two lists of entries; it has a list of the routes in addition to them. */
    size_t bytes = sizeof(uint32_t) * ((1 << 24) + 256 * config.number_tbl8s);
    printf("%zu routes: %.0f ps a look-up, %.0f at once, %zu bytes, sum %llu %llu\n", count, least[0] * 1000 / ASKED,
           least[1] * 1000 / ASKED, bytes, (unsigned long long)sums[0], (unsigned long long)sums[1]);
    rte_lpm_free(lpm);
}

int main(int count, char **words) {
    (void)count;
    char *given[] = {words[0], "--no-huge", "--no-pci", "--no-shconf", "--no-telemetry", "-m", "512", "-l", "0",
                     "--log-level", "1"};
    if (rte_eal_init(sizeof given / sizeof *given, given) < 0)
        return 1;
    measure(1000);
    measure(10000);
    measure(100000);
    return 0;
}
