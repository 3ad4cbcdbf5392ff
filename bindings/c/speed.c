/* Nanoseconds per call of read and contains, for both families, compared with inet_pton, which reads only an address,
 * and nanoseconds per row of a column. The texts are random networks with random prefix lengths; about half of the
 * addresses are in their network. Searches in a set and in a table of 10,000 random networks are compared with a plain
 * binary search in C over the same array, and are then made again with an index. */
#define _POSIX_C_SOURCE 200809L
#include "ipnetwork.h"

#include <arpa/inet.h>
#include <stdio.h>
#include <stdlib.h>
#include <string.h>
#include <time.h>

enum { COUNT = 4096, RUNS = 200, TRIES = 7 };

static uint64_t state = 0x123456789abcdef1u;

static uint64_t next(void) {
    state ^= state >> 12;
    state ^= state << 25;
    state ^= state >> 27;
    return state * 0x2545f4914f6cdd1du;
}

static uint8_t random_byte(void) { return (uint8_t)(next() >> 56); }

static double now(void) {
    struct timespec time;
    clock_gettime(CLOCK_PROCESS_CPUTIME_ID, &time);
    return (double)time.tv_sec * 1e9 + (double)time.tv_nsec;
}

static char texts_v4[COUNT][IPNETWORK_V4_TEXT], texts_v6[COUNT][IPNETWORK_V6_TEXT];
static char addresses_v4[COUNT][INET_ADDRSTRLEN], addresses_v6[COUNT][INET6_ADDRSTRLEN];
static size_t lengths_v4[COUNT], lengths_v6[COUNT];
static ipnetwork_v4 networks_v4[COUNT];
static ipnetwork_v6 networks_v6[COUNT];
static uint8_t asked_v4[COUNT][4], asked_v6[COUNT][16];
static volatile uint64_t sink;

static void make(void) {
    for (size_t i = 0; i < COUNT; i++) {
        ipnetwork_v4 *four = &networks_v4[i];
        ipnetwork_v6 *six = &networks_v6[i];
        for (size_t at = 0; at < 4; at++)
            four->address[at] = random_byte();
        for (size_t at = 0; at < 16; at += 2) {
            int zero = next() % 5 < 2;
            six->address[at] = zero ? 0 : random_byte();
            six->address[at + 1] = zero ? 0 : random_byte();
        }
        four->prefix = (uint8_t)(next() % 33);
        six->prefix = (uint8_t)(next() % 129);
        if (ipnetwork_v4_canonical(four, texts_v4[i], sizeof texts_v4[i], &lengths_v4[i]) != IPNETWORK_OK ||
            ipnetwork_v6_canonical(six, texts_v6[i], sizeof texts_v6[i], &lengths_v6[i]) != IPNETWORK_OK ||
            ipnetwork_v4_broadcast(four, asked_v4[i]) != IPNETWORK_OK ||
            ipnetwork_v6_broadcast(six, asked_v6[i]) != IPNETWORK_OK)
            abort();
        inet_ntop(AF_INET, four->address, addresses_v4[i], sizeof addresses_v4[i]);
        inet_ntop(AF_INET6, six->address, addresses_v6[i], sizeof addresses_v6[i]);
        if (next() & 1) {
            asked_v4[i][0] ^= 128;
            asked_v6[i][0] ^= 128;
        }
    }
}

static ipnetwork_v4 four;
static ipnetwork_v6 six;
static uint8_t octets[16], answer;

static uint64_t read_v4(size_t i) { return ipnetwork_v4_read(texts_v4[i], lengths_v4[i], &four) + four.prefix; }
static uint64_t read_v6(size_t i) { return ipnetwork_v6_read(texts_v6[i], lengths_v6[i], &six) + six.prefix; }
static uint64_t has_v4(size_t i) { return ipnetwork_v4_contains(&networks_v4[i], asked_v4[i], &answer) + answer; }
static uint64_t has_v6(size_t i) { return ipnetwork_v6_contains(&networks_v6[i], asked_v6[i], &answer) + answer; }
/* One call for all addresses and one network. */
static uint8_t answers[COUNT];
static uint64_t column_v4(size_t i) {
    return i != 0 ? 0 : ipnetwork_v4_contains_column(networks_v4, asked_v4[0], COUNT, answers, COUNT) + answers[1];
}
static uint64_t column_v6(size_t i) {
    return i != 0 ? 0 : ipnetwork_v6_contains_column(networks_v6, asked_v6[0], COUNT, answers, COUNT) + answers[1];
}
/* The same texts one after the other, and the offsets at which each begins and the last one ends. */
static char joined_v4[sizeof texts_v4], joined_v6[sizeof texts_v6];
static uint32_t offsets_v4[COUNT + 1], offsets_v6[COUNT + 1];
static uint8_t read_faults[COUNT];
static ipnetwork_v4 read_fours[COUNT];
static ipnetwork_v6 read_sixes[COUNT];

static void join(void) {
    for (size_t i = 0; i < COUNT; i++) {
        memcpy(joined_v4 + offsets_v4[i], texts_v4[i], lengths_v4[i]);
        memcpy(joined_v6 + offsets_v6[i], texts_v6[i], lengths_v6[i]);
        offsets_v4[i + 1] = offsets_v4[i] + (uint32_t)lengths_v4[i];
        offsets_v6[i + 1] = offsets_v6[i] + (uint32_t)lengths_v6[i];
    }
}

static uint64_t read_column_v4(size_t i) {
    return i != 0 ? 0 : ipnetwork_v4_read_column(joined_v4, offsets_v4[COUNT], offsets_v4, COUNT + 1, read_fours, COUNT, read_faults, COUNT) + read_fours[1].prefix;
}
static uint64_t read_column_v6(size_t i) {
    return i != 0 ? 0 : ipnetwork_v6_read_column(joined_v6, offsets_v6[COUNT], offsets_v6, COUNT + 1, read_sixes, COUNT, read_faults, COUNT) + read_sixes[1].prefix;
}
static uint64_t pton_v4(size_t i) { return (uint64_t)inet_pton(AF_INET, addresses_v4[i], octets) + octets[0]; }
static uint64_t pton_v6(size_t i) { return (uint64_t)inet_pton(AF_INET6, addresses_v6[i], octets) + octets[0]; }

/* A set of random networks with prefix lengths from 20 to 28, and a table of them. About half of the addresses are in
 * one of them. */
enum { MANY = 10000 };
static ipnetwork_v4 many[MANY], set_blocks[MANY], table_blocks[MANY];
static size_t set_count, places[MANY], indexes[COUNT];
static uint8_t searched[COUNT][4], faults[COUNT];

static void make_lists(void) {
    for (size_t i = 0; i < MANY; i++) {
        for (size_t at = 0; at < 4; at++)
            many[i].address[at] = random_byte();
        many[i].prefix = (uint8_t)(20 + next() % 9);
    }
    memcpy(set_blocks, many, sizeof many);
    if (ipnetwork_v4_aggregate(set_blocks, MANY, &set_count) != IPNETWORK_OK ||
        ipnetwork_v4_table_make(many, MANY, table_blocks, MANY, places, MANY) != IPNETWORK_OK)
        abort();
    for (size_t i = 0; i < COUNT; i++) {
        for (size_t at = 0; at < 4; at++)
            searched[i][at] = random_byte();
        if (next() & 1)
            memcpy(searched[i], many[next() % MANY].address, 4);
    }
}

static uint32_t number_of(const uint8_t octets[4]) {
    return (uint32_t)octets[0] << 24 | (uint32_t)octets[1] << 16 | (uint32_t)octets[2] << 8 | octets[3];
}

/* The same as ipnetwork_v4_index_contains without an index, as one would write it in C. */
__attribute__((noinline)) static ipnetwork_fault plain_contains(const ipnetwork_v4 *blocks, size_t count, const uint8_t address[4], uint8_t *has) {
    uint32_t number = number_of(address);
    size_t from = 0, to = count;
    while (from < to) {
        size_t middle = from + (to - from) / 2;
        if (number_of(blocks[middle].address) <= number)
            from = middle + 1;
        else
            to = middle;
    }
    *has = 0;
    if (from == 0)
        return IPNETWORK_OK;
    const ipnetwork_v4 *last = &blocks[from - 1];
    if (last->prefix > 32)
        return IPNETWORK_PREFIX;
    *has = (uint64_t)(number_of(last->address) ^ number) >> (32 - last->prefix) == 0;
    return IPNETWORK_OK;
}

static uint64_t set_v4(size_t i) { return ipnetwork_v4_index_contains(set_blocks, set_count, NULL, 0, searched[i], &answer) + answer; }
static uint64_t plain_set_v4(size_t i) { return plain_contains(set_blocks, set_count, searched[i], &answer) + answer; }
static uint64_t table_v4(size_t i) {
    return ipnetwork_v4_index_find(table_blocks, MANY, NULL, 0, searched[i], indexes) + indexes[0];
}
static uint64_t table_column_v4(size_t i) {
    return i != 0 ? 0 : ipnetwork_v4_index_find_column(table_blocks, MANY, NULL, 0, searched[0], COUNT, indexes, COUNT, faults, COUNT) + indexes[1];
}

/* The same by an index, and sets of IPv6 networks with prefix lengths from 36 to 64, which all share the first 20
 * bits. */
static ipnetwork_v6 set_six[MANY];
static uint8_t searched_six[COUNT][16], member_answers[COUNT];
static uint32_t *index_set, *index_table, *index_six;
static size_t length_set, length_table, length_six, set_six_count;

static uint32_t *make_index(size_t count, size_t *length) {
    if (ipnetwork_index_size(count, length) != IPNETWORK_OK)
        abort();
    uint32_t *index = malloc(*length * sizeof *index);
    if (index == NULL)
        abort();
    return index;
}

/* The ranges of the table, and of a table of the IPv6 networks. */
static ipnetwork_v4 ranges[2 * MANY];
static ipnetwork_v6 table_six[MANY], ranges_six[2 * MANY];
static size_t range_places[2 * MANY], range_places_six[2 * MANY], range_count, range_count_six, length_ranges, length_ranges_six;
static uint32_t *index_ranges, *index_ranges_six;

static void make_ranges(const ipnetwork_v6 *networks) {
    if (ipnetwork_v6_table_make(networks, MANY, table_six, MANY, places, MANY) != IPNETWORK_OK ||
        ipnetwork_v4_ranges_make(table_blocks, MANY, NULL, 0, ranges, 2 * MANY, range_places, 2 * MANY, &range_count) != IPNETWORK_OK ||
        ipnetwork_v6_ranges_make(table_six, MANY, NULL, 0, ranges_six, 2 * MANY, range_places_six, 2 * MANY, &range_count_six) != IPNETWORK_OK)
        abort();
    index_ranges = make_index(range_count, &length_ranges);
    index_ranges_six = make_index(range_count_six, &length_ranges_six);
    if (ipnetwork_v4_table_index_make(ranges, range_count, index_ranges, length_ranges) != IPNETWORK_OK ||
        ipnetwork_v6_table_index_make(ranges_six, range_count_six, index_ranges_six, length_ranges_six) != IPNETWORK_OK)
        abort();
}
static uint64_t ranges_by(size_t i) {
    return ipnetwork_v4_ranges_find(ranges, range_count, range_places, range_count, index_ranges, length_ranges, searched[i], indexes) + indexes[0];
}
static uint64_t place_by(size_t i) {
    return ipnetwork_v4_ranges_place(ranges, range_count, range_places, range_count, index_ranges, length_ranges, searched[i]).place;
}
static uint64_t ranges_column_by(size_t i) {
    return i != 0 ? 0 : ipnetwork_v4_ranges_find_column(ranges, range_count, range_places, range_count, index_ranges, length_ranges, searched[0], COUNT, indexes, COUNT, faults, COUNT) + indexes[1];
}
static uint64_t ranges_column_six(size_t i) {
    return i != 0 ? 0 : ipnetwork_v6_ranges_find_column(ranges_six, range_count_six, range_places_six, range_count_six, index_ranges_six, length_ranges_six, searched_six[0], COUNT, indexes, COUNT, faults, COUNT) + indexes[1];
}

static void make_indexes(void) {
    for (size_t i = 0; i < MANY; i++) {
        memcpy(set_six[i].address, (uint8_t[]){0x20, 1, 0x0d}, 3);
        for (size_t at = 3; at < 16; at++)
            set_six[i].address[at] = random_byte();
        set_six[i].prefix = (uint8_t)(36 + next() % 29);
    }
    for (size_t i = 0; i < COUNT; i++) {
        memcpy(searched_six[i], (uint8_t[]){0x20, 1, 0x0d}, 3);
        for (size_t at = 3; at < 16; at++)
            searched_six[i][at] = random_byte();
        if (next() & 1)
            memcpy(searched_six[i], set_six[next() % MANY].address, 16);
    }
    make_ranges(set_six);
    if (ipnetwork_v6_aggregate(set_six, MANY, &set_six_count) != IPNETWORK_OK)
        abort();
    index_set = make_index(set_count, &length_set);
    index_table = make_index(MANY, &length_table);
    index_six = make_index(set_six_count, &length_six);
    if (ipnetwork_v4_index_make(set_blocks, set_count, index_set, length_set) != IPNETWORK_OK ||
        ipnetwork_v4_table_index_make(table_blocks, MANY, index_table, length_table) != IPNETWORK_OK ||
        ipnetwork_v6_index_make(set_six, set_six_count, index_six, length_six) != IPNETWORK_OK)
        abort();
}

static uint64_t set_by(size_t i) {
    return ipnetwork_v4_index_contains(set_blocks, set_count, index_set, length_set, searched[i], &answer) + answer;
}
static uint64_t set_column_by(size_t i) {
    return i != 0 ? 0 : ipnetwork_v4_index_contains_column(set_blocks, set_count, index_set, length_set, searched[0], COUNT, member_answers, COUNT, faults, COUNT) + member_answers[1];
}
static uint64_t table_by(size_t i) {
    return ipnetwork_v4_index_find(table_blocks, MANY, index_table, length_table, searched[i], indexes) + indexes[0];
}
static uint64_t table_column_by(size_t i) {
    return i != 0 ? 0 : ipnetwork_v4_index_find_column(table_blocks, MANY, index_table, length_table, searched[0], COUNT, indexes, COUNT, faults, COUNT) + indexes[1];
}
static uint64_t set_v6(size_t i) { return ipnetwork_v6_index_contains(set_six, set_six_count, NULL, 0, searched_six[i], &answer) + answer; }
static uint64_t six_by(size_t i) {
    return ipnetwork_v6_index_contains(set_six, set_six_count, index_six, length_six, searched_six[i], &answer) + answer;
}
static uint64_t six_column_by(size_t i) {
    return i != 0 ? 0 : ipnetwork_v6_index_contains_column(set_six, set_six_count, index_six, length_six, searched_six[0], COUNT, member_answers, COUNT, faults, COUNT) + member_answers[1];
}

struct row {
    const char *name;
    uint64_t (*call)(size_t);
};

/* The least of several measurements of each row. The rows take turns, so that other load on the machine affects all of
 * them. */
static void measure(const struct row *rows, size_t count) {
    double least[11];
    for (size_t row = 0; row < count; row++) least[row] = 1e300;
    for (int try = 0; try < TRIES; try++) {
        for (size_t row = 0; row < count; row++) {
            uint64_t sum = 0;
            double start = now();
            for (int run = 0; run < RUNS; run++)
                for (size_t i = 0; i < COUNT; i++)
                    sum += rows[row].call(i);
            double each = (now() - start) / ((double)RUNS * COUNT);
            sink += sum;
            if (each < least[row])
                least[row] = each;
        }
    }
    for (size_t row = 0; row < count; row++)
        printf("%-40s %6.1f ns\n", rows[row].name, least[row]);
}

int main(void) {
    static const struct row reads[] = {
        {"ipnetwork_v4_read", read_v4}, {"inet_pton, IPv4 address", pton_v4}, {"ipnetwork_v6_read", read_v6}, {"inet_pton, IPv6 address", pton_v6},
        {"ipnetwork_v4_read_column", read_column_v4}, {"ipnetwork_v6_read_column", read_column_v6}};
    static const struct row members[] = {{"ipnetwork_v4_contains", has_v4}, {"ipnetwork_v6_contains", has_v6},
        {"ipnetwork_v4_contains_column", column_v4}, {"ipnetwork_v6_contains_column", column_v6}};
    static const struct row searches[] = {{"ipnetwork_v4_index_contains, no index", set_v4}, {"a plain binary search in C", plain_set_v4},
        {"ipnetwork_v4_index_find, no index", table_v4}, {"ipnetwork_v4_index_find_column, no index", table_column_v4}};
    static const struct row by_index[] = {{"ipnetwork_v4_index_contains", set_by}, {"ipnetwork_v4_index_contains_column", set_column_by},
        {"ipnetwork_v4_index_find", table_by}, {"ipnetwork_v4_index_find_column", table_column_by},
        {"ipnetwork_v4_ranges_place", place_by}, {"ipnetwork_v4_ranges_find", ranges_by}, {"ipnetwork_v4_ranges_find_column", ranges_column_by}, {"ipnetwork_v6_ranges_find_column", ranges_column_six},
        {"ipnetwork_v6_index_contains, no index", set_v6}, {"ipnetwork_v6_index_contains", six_by}, {"ipnetwork_v6_index_contains_column", six_column_by}};
    make();
    join();
    make_lists();
    make_indexes();
    measure(reads, 6);
    measure(members, 4);
    measure(searches, 4);
    measure(by_index, 11);
    return 0;
}
