/* Tests each call of the header: rows with known results, buffers of every length, prefix lengths greater than the
 * width. Every text and buffer is in a block of exactly its size, so that valgrind or a sanitizer detects access to one
 * byte too many. */
#define _DEFAULT_SOURCE
#include "ipnetwork.h"
#include "rows.h"

#include <stdio.h>
#include <stdlib.h>
#include <string.h>
#include <sys/mman.h>
#include <unistd.h>

static int failures;

#define CHECK(row, holds)                                                                                             \
    do {                                                                                                              \
        if (!(holds)) {                                                                                               \
            fprintf(stderr, "test.c:%d: %s: %s\n", __LINE__, row, #holds);                                            \
            failures++;                                                                                               \
        }                                                                                                             \
    } while (0)

/* A copy in a block of exactly this many bytes. */
static void *block(const void *bytes, size_t length) {
    void *copy = malloc(length);
    if (copy == NULL && length != 0)
        abort();
    if (length != 0)
        memcpy(copy, bytes, length);
    return copy;
}

/* This many bytes, at most a page, right before a page that can be neither read nor written. */
static void *edge(size_t length) {
    size_t page = (size_t)sysconf(_SC_PAGESIZE);
    char *pages = mmap(NULL, 2 * page, PROT_READ | PROT_WRITE, MAP_PRIVATE | MAP_ANONYMOUS, -1, 0);
    if (pages == MAP_FAILED || length > page || mprotect(pages + page, page, PROT_NONE) != 0)
        abort();
    return pages + page - length;
}

static void leave_edge(void *bytes, size_t length) {
    size_t page = (size_t)sysconf(_SC_PAGESIZE);
    if (munmap((char *)bytes + length - page, 2 * page) != 0)
        abort();
}

/* A page of zeros that can be read but not written. */
static void *read_only_page(void) {
    void *page = mmap(NULL, (size_t)sysconf(_SC_PAGESIZE), PROT_READ, MAP_PRIVATE | MAP_ANONYMOUS, -1, 0);
    if (page == MAP_FAILED)
        abort();
    return page;
}

/* Memory of this many bytes; NULL for none, as malloc may return. */
static char *somewhere(char *bytes, size_t length) { return length == 0 ? NULL : bytes; }

static ipnetwork_fault read_v4(const char *text, ipnetwork_v4 *network) {
    size_t length = strlen(text);
    char *copy = block(text, length);
    ipnetwork_fault fault = ipnetwork_v4_read(somewhere(copy, length), length, network);
    free(copy);
    return fault;
}

static ipnetwork_fault read_v6(const char *text, ipnetwork_v6 *network) {
    size_t length = strlen(text);
    char *copy = block(text, length);
    ipnetwork_fault fault = ipnetwork_v6_read(somewhere(copy, length), length, network);
    free(copy);
    return fault;
}

static ipnetwork_fault read_ip(const char *text, ipnetwork_ip *network) {
    size_t length = strlen(text);
    char *copy = block(text, length);
    ipnetwork_fault fault = ipnetwork_read(somewhere(copy, length), length, network);
    free(copy);
    return fault;
}

static ipnetwork_fault read_with_cause(const char *text, ipnetwork_ip *network) {
    size_t length = strlen(text);
    char *copy = block(text, length);
    ipnetwork_fault fault = ipnetwork_read_with_cause(somewhere(copy, length), length, network);
    free(copy);
    return fault;
}

static ipnetwork_v4 v4(const char *text) {
    ipnetwork_v4 network = {{0}, 0};
    CHECK(text, read_v4(text, &network) == IPNETWORK_OK);
    return network;
}

static ipnetwork_v6 v6(const char *text) {
    ipnetwork_v6 network = {{0}, 0};
    CHECK(text, read_v6(text, &network) == IPNETWORK_OK);
    return network;
}

static int is_blank(const void *bytes, size_t length) {
    for (size_t i = 0; i < length; i++)
        if (((const uint8_t *)bytes)[i] != 0)
            return 0;
    return 1;
}

static void texts(void) {
    for (size_t i = 0; i < sizeof rows / sizeof *rows; i++) {
        struct row row = rows[i];
        ipnetwork_v4 four, four_before;
        ipnetwork_v6 six, six_before;
        ipnetwork_ip ip, reported, ip_before;
        memset(&four_before, 0xa5, sizeof four);
        memset(&six_before, 0xa5, sizeof six);
        memset(&ip_before, 0xa5, sizeof ip);
        four = four_before;
        six = six_before;
        ip = reported = ip_before;
        CHECK(row.text, read_v4(row.text, &four) == row.v4);
        CHECK(row.text, read_v6(row.text, &six) == row.v6);
        CHECK(row.text, read_ip(row.text, &ip) == (row.canonical != NULL ? YES : ADDR));
        CHECK(row.text, read_with_cause(row.text, &reported) == (row.canonical != NULL ? YES : row.v4 == ADDR ? row.v6 : row.v4));
        CHECK(row.text, memcmp(&reported, &ip, sizeof ip) == 0);
        char buffer[IPNETWORK_V6_TEXT];
        size_t length = 0;
        if (row.v4 == YES) {
            CHECK(row.text, ipnetwork_v4_canonical(&four, buffer, sizeof buffer, &length) == YES);
            CHECK(row.text, ip.family == 4 && memcmp(&ip.v4, &four, sizeof four) == 0);
            CHECK(row.text, is_blank(&ip.v6, sizeof ip.v6));
        } else {
            CHECK(row.text, memcmp(&four, &four_before, sizeof four) == 0);
        }
        if (row.v6 == YES) {
            CHECK(row.text, ipnetwork_v6_canonical(&six, buffer, sizeof buffer, &length) == YES);
            CHECK(row.text, ip.family == 6 && memcmp(&ip.v6, &six, sizeof six) == 0);
            CHECK(row.text, is_blank(&ip.v4, sizeof ip.v4));
        } else {
            CHECK(row.text, memcmp(&six, &six_before, sizeof six) == 0);
        }
        if (row.canonical != NULL)
            CHECK(row.text, strcmp(buffer, row.canonical) == 0 && length == strlen(row.canonical));
        else
            CHECK(row.text, memcmp(&ip, &ip_before, sizeof ip) == 0);
    }
    ipnetwork_v4 network;
    CHECK("a zero byte inside", ipnetwork_v4_read("1.2.3.4\0", 8, &network) == ADDR);
    CHECK("a byte past ASCII", ipnetwork_v4_read("1.2.3.\xe9", 7, &network) == ADDR);
    char zeros[310];
    memset(zeros, '0', sizeof zeros);
    memcpy(zeros, "10.0.0.0/", 9);
    zeros[309] = '8';
    CHECK("300 zeros", ipnetwork_v4_read(zeros, sizeof zeros, &network) == YES && network.prefix == 8);
}

/* NULL with length 0. */
static void nothing(void) {
    ipnetwork_v4 four = v4("10.1.9.32/16");
    ipnetwork_v6 six = v6("2001:db8::1/64");
    ipnetwork_ip ip = {6, four, six};
    ipnetwork_address address = {{10, 1, 9, 32}, 4};
    uint8_t answer = 77;
    size_t length = 0;
    CHECK("NULL", ipnetwork_v4_read(NULL, 0, &four) == ADDR && four.prefix == 16);
    CHECK("NULL", ipnetwork_v6_read(NULL, 0, &six) == ADDR && six.prefix == 64);
    CHECK("NULL", ipnetwork_read(NULL, 0, &ip) == ADDR && ip.family == 6);
    CHECK("NULL", ipnetwork_read_with_cause(NULL, 0, &ip) == ADDR && ip.family == 6);
    CHECK("NULL", ipnetwork_address_read(NULL, 0, &address) == ADDR && address.length == 4);
    CHECK("NULL", ipnetwork_contains(&ip, NULL, 0, &answer) == IPNETWORK_NO_FAMILY && answer == 77);
    CHECK("NULL", ipnetwork_v4_canonical(&four, NULL, 0, &length) == IPNETWORK_SHORT_BUFFER && length == 12);
    CHECK("NULL", ipnetwork_v6_canonical(&six, NULL, 0, &length) == IPNETWORK_SHORT_BUFFER && length == 14);
    CHECK("NULL", ipnetwork_canonical(&ip, NULL, 0, &length) == IPNETWORK_SHORT_BUFFER && length == 14);
    CHECK("NULL", ipnetwork_address_canonical(&address, NULL, 0, &length) == IPNETWORK_SHORT_BUFFER && length == 9);
    CHECK("NULL", ipnetwork_fault_text(IPNETWORK_OK, NULL, 0, &length) == IPNETWORK_SHORT_BUFFER && length == 8);
}

/* The text of each fault, and of a number that is not one. */
static void fault_texts(void) {
    static const char *const wanted[] = {"no fault", "more than one slash", "no address",
                                         "no prefix length of the family", "no room for the answer", "no mask",
                                         "no such member or network", "no family", "no offsets of the column",
                                         "no range", "no list of a set", "unknown fault"};
    for (uint32_t fault = 0; fault < 300; fault++) {
        const char *text = wanted[fault < 11 ? fault : 11];
        char buffer[IPNETWORK_FAULT_TEXT];
        size_t length;
        CHECK(text, ipnetwork_fault_text(fault, buffer, sizeof buffer, &length) == YES);
        CHECK(text, strcmp(buffer, text) == 0 && length == strlen(text));
        CHECK(text, ipnetwork_fault_text(fault, buffer, length, &length) == IPNETWORK_SHORT_BUFFER);
    }
}

/* Which build it is: with an argument, it is this text. */
static void build(const char *wanted) {
    char buffer[IPNETWORK_BUILD_TEXT];
    size_t length;
    CHECK("build", ipnetwork_build(buffer, sizeof buffer, &length) == YES && length == strlen(buffer));
    CHECK("build", wanted == NULL || strcmp(buffer, wanted) == 0);
    CHECK("build", ipnetwork_build(buffer, length, &length) == IPNETWORK_SHORT_BUFFER && length == strlen(buffer));
    CHECK("NULL", ipnetwork_build(NULL, 0, &length) == IPNETWORK_SHORT_BUFFER && length == strlen(buffer));
}

/* Buffers of each length from 0 to one more than the longest text needs. */
static void buffers(void) {
    static const char *const fours[] = {"0.0.0.0/0", "10.1.9.32/16", "255.255.255.255/32"};
    static const char *const sixes[] = {"::/0", "2001:db8::1/64", "::ffff:255.255.255.255/128",
                                        "ffff:ffff:ffff:ffff:ffff:ffff:ffff:ffff/128"};
    for (size_t i = 0; i < 7; i++) {
        const char *text = i < 3 ? fours[i] : sixes[i - 3];
        size_t wanted = strlen(text);
        for (size_t room = 0; room <= IPNETWORK_V6_TEXT + 1; room++) {
            char *buffer = malloc(room);
            if (room != 0)
                memset(buffer, 0xa5, room);
            size_t reported = 1000;
            ipnetwork_fault fault;
            if (i < 3) {
                ipnetwork_v4 network = v4(text);
                fault = ipnetwork_v4_canonical(&network, somewhere(buffer, room), room, &reported);
            } else {
                ipnetwork_v6 network = v6(text);
                fault = ipnetwork_v6_canonical(&network, somewhere(buffer, room), room, &reported);
            }
            CHECK(text, reported == wanted);
            CHECK(text, fault == (room > wanted ? YES : IPNETWORK_SHORT_BUFFER));
            size_t written = room > wanted ? wanted + 1 : 0;
            CHECK(text, written == 0 || memcmp(buffer, text, written) == 0);
            for (size_t at = written; at < room; at++)
                CHECK(text, (uint8_t)buffer[at] == 0xa5);
            free(buffer);
        }
    }
    CHECK("IPNETWORK_V4_TEXT", strlen(fours[2]) + 1 == IPNETWORK_V4_TEXT);
    CHECK("IPNETWORK_V6_TEXT", strlen(sixes[3]) + 1 == IPNETWORK_V6_TEXT);
}

static void questions_v4(void) {
    ipnetwork_v4 net = v4("10.10.1.97/23"), made;
    uint8_t low[4], high[4], mask[4], prefix = 77, answer = 77;
    uint64_t size = 77;
    CHECK("low", ipnetwork_v4_network(&net, low) == YES && memcmp(low, "\x0a\x0a\0\0", 4) == 0);
    CHECK("high", ipnetwork_v4_broadcast(&net, high) == YES && memcmp(high, "\x0a\x0a\x01\xff", 4) == 0);
    CHECK("mask", ipnetwork_v4_mask(&net, mask) == YES && memcmp(mask, "\xff\xff\xfe\0", 4) == 0);
    CHECK("prefix", ipnetwork_v4_prefix_of_mask(mask, &prefix) == YES && prefix == 23);
    prefix = 77;
    CHECK("no mask", ipnetwork_v4_prefix_of_mask(low, &prefix) == IPNETWORK_NO_MASK && prefix == 77);
    CHECK("size", ipnetwork_v4_size(&net, &size) == YES && size == 512);
    net.prefix = 0;
    CHECK("size of all", ipnetwork_v4_size(&net, &size) == YES && size == 4294967296u);
    CHECK("last of all", ipnetwork_v4_nth(&net, 4294967295u, mask) == YES && memcmp(mask, "\xff\xff\xff\xff", 4) == 0);
    net.prefix = 1;
    CHECK("size of half", ipnetwork_v4_size(&net, &size) == YES && size == 2147483648u);
    CHECK("nth past half", ipnetwork_v4_nth(&net, 2147483648u, mask) == IPNETWORK_NO_MEMBER);
    net = v4("127.0.0.0/24");
    CHECK("nth 255", ipnetwork_v4_nth(&net, 255, low) == YES && memcmp(low, "\x7f\0\0\xff", 4) == 0);
    CHECK("nth 256", ipnetwork_v4_nth(&net, 256, high) == IPNETWORK_NO_MEMBER && memcmp(high, "\x0a\x0a\x01\xff", 4) == 0);
    CHECK("new", ipnetwork_v4_new(low, 24, &made) == YES && memcmp(made.address, low, 4) == 0 && made.prefix == 24);
    CHECK("new 33", ipnetwork_v4_new(low, 33, &made) == PREF && made.prefix == 24);
    net = v4("74.125.227.0/25");
    CHECK("holds", ipnetwork_v4_contains(&net, (const uint8_t *)"\x4a\x7d\xe3\x04", &answer) == YES && answer == 1);
    CHECK("holds not", ipnetwork_v4_contains(&net, (const uint8_t *)"\x4a\x7d\xe4\x04", &answer) == YES && answer == 0);
    static const struct {
        const char *one, *other;
        uint8_t inside, overlap;
        int32_t order;
    } pairs[] = {
        {"10.0.0.0/30", "10.0.1.0/24", 0, 0, -1}, {"10.0.0.0/30", "10.0.0.0/24", 1, 1, 1},
        {"10.0.1.0/24", "10.0.0.0/30", 0, 0, 1},  {"10.0.0.0/24", "10.0.0.0/30", 0, 1, -1},
        {"1.2.2.0/24", "1.2.2.64/26", 0, 1, -1},  {"1.2.2.7/24", "1.2.2.7/24", 1, 1, 0},
        {"1.2.2.9/24", "1.2.2.7/24", 1, 1, 1},    {"128.0.0.0/1", "127.0.0.0/8", 0, 0, 1},
    };
    for (size_t i = 0; i < sizeof pairs / sizeof *pairs; i++) {
        ipnetwork_v4 one = v4(pairs[i].one), other = v4(pairs[i].other);
        uint8_t inside = 77, overlap = 77;
        int32_t order = 77;
        CHECK(pairs[i].one, ipnetwork_v4_is_subnet_of(&one, &other, &inside) == YES && inside == pairs[i].inside);
        CHECK(pairs[i].one, ipnetwork_v4_overlaps(&one, &other, &overlap) == YES && overlap == pairs[i].overlap);
        CHECK(pairs[i].one, ipnetwork_v4_compare(&one, &other, &order) == YES && order == pairs[i].order);
    }
}

static void questions_v6(void) {
    ipnetwork_v6 net = v6("2001:db8::/96"), made, wanted;
    uint8_t low[16], high[16], mask[16], size[17], n[16] = {0}, prefix = 77, answer = 77;
    wanted = v6("2001:db8::");
    CHECK("low", ipnetwork_v6_network(&net, low) == YES && memcmp(low, wanted.address, 16) == 0);
    wanted = v6("2001:db8::ffff:ffff");
    CHECK("high", ipnetwork_v6_broadcast(&net, high) == YES && memcmp(high, wanted.address, 16) == 0);
    CHECK("size", ipnetwork_v6_size(&net, size) == YES && memcmp(size, "\0\0\0\0\0\0\0\0\0\0\0\0\x01\0\0\0", 17) == 0);
    net = v6("::/40");
    wanted = v6("ffff:ffff:ff00::");
    CHECK("mask", ipnetwork_v6_mask(&net, mask) == YES && memcmp(mask, wanted.address, 16) == 0);
    CHECK("prefix", ipnetwork_v6_prefix_of_mask(mask, &prefix) == YES && prefix == 40);
    prefix = 77;
    CHECK("no mask", ipnetwork_v6_prefix_of_mask(low, &prefix) == IPNETWORK_NO_MASK && prefix == 77);
    net = v6("::/0");
    wanted = v6("ffff:ffff:ffff:ffff:ffff:ffff:ffff:ffff");
    CHECK("size of all", ipnetwork_v6_size(&net, size) == YES && size[0] == 1 && is_blank(size + 1, 16));
    CHECK("last of all", ipnetwork_v6_nth(&net, wanted.address, low) == YES && memcmp(low, wanted.address, 16) == 0);
    for (unsigned kept = 1; kept <= 128; kept++) {
        net.prefix = (uint8_t)kept;
        uint8_t power[17] = {0};
        power[16 - (128 - kept) / 8] = (uint8_t)(1u << (128 - kept) % 8);
        CHECK("size", ipnetwork_v6_size(&net, size) == YES && memcmp(size, power, 17) == 0);
    }
    net = v6("ff01::/32");
    n[15] = 255;
    wanted = v6("ff01::ff");
    CHECK("nth 255", ipnetwork_v6_nth(&net, n, low) == YES && memcmp(low, wanted.address, 16) == 0);
    CHECK("its size", ipnetwork_v6_size(&net, size) == YES);
    CHECK("nth past", ipnetwork_v6_nth(&net, size + 1, low) == IPNETWORK_NO_MEMBER && memcmp(low, wanted.address, 16) == 0);
    CHECK("new", ipnetwork_v6_new(low, 24, &made) == YES && memcmp(made.address, low, 16) == 0 && made.prefix == 24);
    CHECK("new 129", ipnetwork_v6_new(low, 129, &made) == PREF && made.prefix == 24);
    net = v6("2001:db8::/32");
    CHECK("holds", ipnetwork_v6_contains(&net, high, &answer) == YES && answer == 1);
    CHECK("holds not", ipnetwork_v6_contains(&net, low, &answer) == YES && answer == 0);
    static const struct {
        const char *one, *other;
        uint8_t inside, overlap;
        int32_t order;
    } pairs[] = {
        {"2000:aaa::/56", "2000:aaa::/48", 1, 1, 1},  {"2000:aaa::/48", "2000:aaa::/56", 0, 1, -1},
        {"2000:999::/56", "2000:aaa::/48", 0, 0, -1}, {"2000:bbb::/56", "2000:aaa::/48", 0, 0, 1},
        {"2001:db8:acad::20:2/64", "2001:db8:acad::1/64", 1, 1, 1}, {"::/0", "::/0", 1, 1, 0},
    };
    for (size_t i = 0; i < sizeof pairs / sizeof *pairs; i++) {
        ipnetwork_v6 one = v6(pairs[i].one), other = v6(pairs[i].other);
        uint8_t inside = 77, overlap = 77;
        int32_t order = 77;
        CHECK(pairs[i].one, ipnetwork_v6_is_subnet_of(&one, &other, &inside) == YES && inside == pairs[i].inside);
        CHECK(pairs[i].one, ipnetwork_v6_overlaps(&one, &other, &overlap) == YES && overlap == pairs[i].overlap);
        CHECK(pairs[i].one, ipnetwork_v6_compare(&one, &other, &order) == YES && order == pairs[i].order);
    }
}

/* Structs with a prefix length greater than the width, in every call that takes one, and as either of two. */
static void past_the_width(void) {
    const char *row = "past the width";
    ipnetwork_v4 four = v4("10.1.9.32/16"), good_four = four;
    ipnetwork_v6 six = v6("2001:db8::1/64"), good_six = six;
    uint8_t octets[17] = {0}, answer = 77;
    char buffer[IPNETWORK_V6_TEXT];
    size_t reported = 77;
    uint64_t size = 77;
    int32_t order = 77;
    memset(buffer, 0xa5, sizeof buffer);
    for (unsigned prefix = 33; prefix <= 255; prefix++) {
        four.prefix = (uint8_t)prefix;
        ipnetwork_ip ip = {4, four, good_six};
        CHECK(row, ipnetwork_v4_canonical(&four, buffer, sizeof buffer, &reported) == PREF);
        CHECK(row, ipnetwork_v4_contains(&four, good_four.address, &answer) == PREF);
        CHECK(row, ipnetwork_v4_network(&four, octets) == PREF);
        CHECK(row, ipnetwork_v4_broadcast(&four, octets) == PREF);
        CHECK(row, ipnetwork_v4_mask(&four, octets) == PREF);
        CHECK(row, ipnetwork_v4_size(&four, &size) == PREF);
        CHECK(row, ipnetwork_v4_nth(&four, 0, octets) == PREF);
        CHECK(row, ipnetwork_v4_is_subnet_of(&four, &good_four, &answer) == PREF);
        CHECK(row, ipnetwork_v4_is_subnet_of(&good_four, &four, &answer) == PREF);
        CHECK(row, ipnetwork_v4_overlaps(&four, &good_four, &answer) == PREF);
        CHECK(row, ipnetwork_v4_overlaps(&good_four, &four, &answer) == PREF);
        CHECK(row, ipnetwork_v4_compare(&four, &good_four, &order) == PREF);
        CHECK(row, ipnetwork_v4_compare(&good_four, &four, &order) == PREF);
        CHECK(row, ipnetwork_contains(&ip, good_four.address, 4, &answer) == PREF);
        ip.family = 6;
        uint8_t unused = 0;
        CHECK(row, ipnetwork_contains(&ip, good_six.address, 16, &unused) == YES && unused == 1);
    }
    for (unsigned prefix = 129; prefix <= 255; prefix++) {
        six.prefix = (uint8_t)prefix;
        ipnetwork_ip ip = {6, good_four, six};
        CHECK(row, ipnetwork_v6_canonical(&six, buffer, sizeof buffer, &reported) == PREF);
        CHECK(row, ipnetwork_v6_contains(&six, good_six.address, &answer) == PREF);
        CHECK(row, ipnetwork_v6_network(&six, octets) == PREF);
        CHECK(row, ipnetwork_v6_broadcast(&six, octets) == PREF);
        CHECK(row, ipnetwork_v6_mask(&six, octets) == PREF);
        CHECK(row, ipnetwork_v6_size(&six, octets) == PREF);
        CHECK(row, ipnetwork_v6_nth(&six, good_six.address, octets) == PREF);
        CHECK(row, ipnetwork_v6_is_subnet_of(&six, &good_six, &answer) == PREF);
        CHECK(row, ipnetwork_v6_is_subnet_of(&good_six, &six, &answer) == PREF);
        CHECK(row, ipnetwork_v6_overlaps(&six, &good_six, &answer) == PREF);
        CHECK(row, ipnetwork_v6_overlaps(&good_six, &six, &answer) == PREF);
        CHECK(row, ipnetwork_v6_compare(&six, &good_six, &order) == PREF);
        CHECK(row, ipnetwork_v6_compare(&good_six, &six, &order) == PREF);
        CHECK(row, ipnetwork_contains(&ip, good_six.address, 16, &answer) == PREF);
    }
    CHECK(row, answer == 77 && reported == 77 && size == 77 && order == 77 && is_blank(octets, sizeof octets));
    for (size_t at = 0; at < sizeof buffer; at++)
        CHECK(row, (uint8_t)buffer[at] == 0xa5);
}

/* Columns of each length up to 20, in blocks of exactly their size: each row has the result of a call for it only. */
static void columns(void) {
    ipnetwork_v4 four = v4("10.1.9.32/30");
    ipnetwork_v6 six = v6("2001:db8::1:2/126");
    for (size_t rows = 0; rows <= 20; rows++) {
        for (size_t room = 0; room <= 22; room++) {
            uint8_t(*fours)[4] = malloc(rows * 4), (*sixes)[16] = malloc(rows * 16), *answers = malloc(room);
            ipnetwork_fault wanted = room < rows ? IPNETWORK_SHORT_BUFFER : YES;
            for (size_t row = 0; row < rows; row++) {
                memcpy(fours[row], four.address, 4);
                memcpy(sixes[row], six.address, 16);
                fours[row][3] = (uint8_t)(28 + row);
                sixes[row][15] = (uint8_t)row;
            }
            if (room != 0)
                memset(answers, 77, room);
            CHECK("column", ipnetwork_v4_contains_column(&four, (uint8_t *)fours, rows, answers, room) == wanted);
            for (size_t row = 0; row < room; row++) {
                uint8_t alone = 77;
                if (wanted == YES && row < rows)
                    CHECK("row", ipnetwork_v4_contains(&four, fours[row], &alone) == YES && alone == (row >= 4 && row < 8));
                CHECK("row", answers[row] == alone);
            }
            if (room != 0)
                memset(answers, 77, room);
            CHECK("column", ipnetwork_v6_contains_column(&six, (uint8_t *)sixes, rows, answers, room) == wanted);
            for (size_t row = 0; row < room; row++) {
                uint8_t alone = 77;
                if (wanted == YES && row < rows)
                    CHECK("row", ipnetwork_v6_contains(&six, sixes[row], &alone) == YES && alone == (row < 4));
                CHECK("row", answers[row] == alone);
            }
            free(fours);
            free(sixes);
            free(answers);
        }
    }
    uint8_t answer = 77;
    four.prefix = 33;
    six.prefix = 129;
    CHECK("past", ipnetwork_v4_contains_column(&four, four.address, 1, &answer, 1) == PREF && answer == 77);
    CHECK("past", ipnetwork_v6_contains_column(&six, six.address, 1, &answer, 1) == PREF && answer == 77);
    CHECK("past", ipnetwork_v4_contains_column(&four, four.address, 1, &answer, 0) == PREF && answer == 77);
    CHECK("NULL", ipnetwork_v4_contains_column(&four, NULL, 0, NULL, 0) == PREF);
    four.prefix = 32;
    CHECK("NULL", ipnetwork_v4_contains_column(&four, NULL, 0, NULL, 0) == YES);
}

/* Pseudorandom numbers, the same in each run. */
static uint32_t number(void) {
    static uint32_t state = 20;
    state = state * 1664525 + 1013904223;
    return state >> 16;
}

/* Whether an address is in one of several networks, in any order: each is asked. */
static uint8_t in_fours(const ipnetwork_v4 *networks, size_t count, const uint8_t address[4]) {
    uint8_t has = 0;
    for (size_t i = 0; i < count && has == 0; i++) CHECK("list", ipnetwork_v4_contains(&networks[i], address, &has) == YES);
    return has;
}

static uint8_t in_sixes(const ipnetwork_v6 *networks, size_t count, const uint8_t address[16]) {
    uint8_t has = 0;
    for (size_t i = 0; i < count && has == 0; i++) CHECK("list", ipnetwork_v6_contains(&networks[i], address, &has) == YES);
    return has;
}

/* For random lists of networks within 256 addresses, the aggregate has the same addresses; its blocks ascend, have no
 * host bits and are disjoint, and no two of them are the halves of one block. Each list is in a block of exactly its
 * size. */
static void aggregates(void) {
    for (size_t round = 0; round < 4000; round++) {
        size_t count = round % 9, reported[2] = {77, 77};
        ipnetwork_v4 *four = malloc(count * sizeof *four), *given_four = malloc(count * sizeof *four);
        ipnetwork_v6 *six = malloc(count * sizeof *six), *given_six = malloc(count * sizeof *six);
        ipnetwork_v4 base_four = v4("192.0.2.0");
        ipnetwork_v6 base_six = v6("2001:db8::ffff:0");
        for (size_t i = 0; i < count; i++) {
            uint32_t host = number() % 256, bits = number() % 8;
            four[i] = base_four;
            six[i] = base_six;
            four[i].address[3] = six[i].address[15] = (uint8_t)host;
            four[i].prefix = (uint8_t)(32 - bits);
            six[i].prefix = (uint8_t)(128 - bits);
        }
        if (count != 0) {
            memcpy(given_four, four, count * sizeof *four);
            memcpy(given_six, six, count * sizeof *six);
        }
        CHECK("aggregate", ipnetwork_v4_aggregate(count == 0 ? NULL : four, count, &reported[0]) == YES);
        CHECK("aggregate", ipnetwork_v6_aggregate(count == 0 ? NULL : six, count, &reported[1]) == YES);
        CHECK("aggregate", reported[0] <= count && reported[1] == reported[0]);
        for (unsigned host = 0; host < 256; host++) {
            base_four.address[3] = base_six.address[15] = (uint8_t)host;
            uint8_t was = in_fours(given_four, count, base_four.address);
            CHECK("list", in_fours(four, reported[0], base_four.address) == was);
            CHECK("list", in_sixes(six, reported[1], base_six.address) == was);
        }
        unsigned next = 0, width = 0;
        for (size_t i = 0; i < reported[0]; i++) {
            unsigned low = four[i].address[3], bits = 32u - four[i].prefix;
            CHECK("block", bits < 9 && (low & ((1u << bits) - 1)) == 0 && low >= next);
            CHECK("halves", !(i > 0 && low == next && bits == width && (low >> bits & 1) == 1));
            CHECK("block", six[i].address[15] == low && six[i].prefix == 128 - bits);
            next = low + (1u << bits);
            width = bits;
        }
        if (count != 0) {
            size_t bad = round / 9 % count;
            four[bad].prefix = 33;
            six[bad].prefix = 129;
            memcpy(given_four, four, count * sizeof *four);
            memcpy(given_six, six, count * sizeof *six);
            reported[0] = reported[1] = 77;
            CHECK("past", ipnetwork_v4_aggregate(four, count, &reported[0]) == PREF && reported[0] == 77);
            CHECK("past", ipnetwork_v6_aggregate(six, count, &reported[1]) == PREF && reported[1] == 77);
            CHECK("past", memcmp(four, given_four, count * sizeof *four) == 0);
            CHECK("past", memcmp(six, given_six, count * sizeof *six) == 0);
        }
        free(four);
        free(six);
        free(given_four);
        free(given_six);
    }
    ipnetwork_v4 all[3] = {v4("128.0.0.0/1"), v4("10.0.0.0/8"), v4("0.0.0.0/1")};
    size_t reported = 77;
    CHECK("all", ipnetwork_v4_aggregate(all, 3, &reported) == YES && reported == 1 && all[0].prefix == 0);
    CHECK("all", is_blank(all[0].address, 4) && all[1].prefix <= 32 && all[2].prefix <= 32);
}

/* The blocks within 256 addresses of those for which has[] is true: the fewest possible, in ascending order. */
static void fewest(const char *row, const ipnetwork_v4 *fours, const ipnetwork_v6 *sixes, size_t count,
                   const uint8_t has[256]) {
    uint8_t reported[256] = {0};
    unsigned next = 0, width = 0;
    for (size_t i = 0; i < count; i++) {
        unsigned low = fours[i].address[3], bits = 32u - fours[i].prefix;
        CHECK(row, bits < 9 && (low & ((1u << bits) - 1)) == 0 && low >= next);
        CHECK(row, !(i > 0 && low == next && bits == width && (low >> bits & 1) == 1));
        CHECK(row, sixes[i].address[15] == low && sixes[i].prefix == 128 - bits);
        CHECK(row, memcmp(fours[i].address, "\xc0\0\2", 3) == 0 && memcmp(sixes[i].address, "\x20\1\x0d\xb8", 4) == 0);
        next = low + (1u << bits);
        width = bits;
        memset(reported + low, 1, next - low);
    }
    CHECK(row, memcmp(reported, has, 256) == 0);
}

/* Random sets within 256 addresses, searched for each of these addresses, and compared with a table of one byte for
 * each. */
static void sets(void) {
    uint32_t state = 7;
    for (unsigned round = 0; round < 600; round++) {
        size_t room = round % 9, count = 77, again = 77;
        ipnetwork_v4 *four = edge(room * sizeof *four);
        ipnetwork_v6 *six = edge(room * sizeof *six);
        uint8_t has[256] = {0};
        for (size_t i = 0; i < room; i++) {
            state = state * 1103515245 + 12345;
            unsigned low = state >> 16 & 255, bits = (state >> 24) % 6;
            four[i] = (ipnetwork_v4){{192, 0, 2, (uint8_t)low}, (uint8_t)(32 - bits)};
            six[i] = (ipnetwork_v6){{0x20, 1, 0x0d, 0xb8}, (uint8_t)(128 - bits)};
            six[i].address[15] = (uint8_t)low;
            memset(has + (low >> bits << bits), 1, 1u << bits);
        }
        CHECK("set", ipnetwork_v4_aggregate(four, room, &count) == YES);
        CHECK("set", ipnetwork_v6_aggregate(six, room, &again) == YES && again == count);
        /* The blocks are at the end of the memory. */
        ipnetwork_v4 *blocks = four + (room - count);
        ipnetwork_v6 *blocks_six = six + (room - count);
        memmove(blocks, four, count * sizeof *four);
        memmove(blocks_six, six, count * sizeof *six);
        fewest("set", blocks, blocks_six, count, has);
        for (unsigned low = 0; low < 256; low++) {
            uint8_t in_four = 77, in_six = 77, address[4] = {192, 0, 2, (uint8_t)low};
            uint8_t address_six[16] = {0x20, 1, 0x0d, 0xb8};
            address_six[15] = (uint8_t)low;
            CHECK("set", ipnetwork_v4_index_contains(blocks, count, NULL, 0, address, &in_four) == YES && in_four == has[low]);
            CHECK("set", ipnetwork_v6_index_contains(blocks_six, count, NULL, 0, address_six, &in_six) == YES && in_six == has[low]);
        }
        leave_edge(four, room * sizeof *four);
        leave_edge(six, room * sizeof *six);
    }
    ipnetwork_v4 past = v4("10.0.0.0/8");
    ipnetwork_v6 past_six = v6("::/8");
    uint8_t answer = 77;
    past.prefix = 33;
    past_six.prefix = 129;
    CHECK("past", ipnetwork_v4_index_contains(&past, 1, NULL, 0, past.address, &answer) == PREF && answer == 77);
    CHECK("past", ipnetwork_v6_index_contains(&past_six, 1, NULL, 0, past_six.address, &answer) == PREF && answer == 77);
    CHECK("NULL", ipnetwork_v4_index_contains(NULL, 0, NULL, 0, past.address, &answer) == YES && answer == 0);
    answer = 77;
    CHECK("NULL", ipnetwork_v6_index_contains(NULL, 0, NULL, 0, past_six.address, &answer) == YES && answer == 0);
    /* The search reads the last struct at or before the address, and no other. */
    ipnetwork_v4 last[2] = {v4("10.0.0.0/8"), past};
    ipnetwork_v6 last_six[2] = {v6("::/8"), past_six};
    const uint8_t first[4] = {10, 0, 0, 1}, after[4] = {192, 0, 2, 1};
    const uint8_t first_six[16] = {0, 1}, after_six[16] = {32, 1};
    last[1].address[0] = 192;
    last_six[1].address[0] = 32;
    answer = 77;
    CHECK("past", ipnetwork_v4_index_contains(last, 2, NULL, 0, after, &answer) == PREF && answer == 77);
    CHECK("past", ipnetwork_v6_index_contains(last_six, 2, NULL, 0, after_six, &answer) == PREF && answer == 77);
    CHECK("past", ipnetwork_v4_index_contains(last, 2, NULL, 0, first, &answer) == YES && answer == 1);
    answer = 77;
    CHECK("past", ipnetwork_v6_index_contains(last_six, 2, NULL, 0, first_six, &answer) == YES && answer == 1);
}

typedef ipnetwork_fault (*operation_v4)(const ipnetwork_v4 *, size_t, const ipnetwork_v4 *, size_t, ipnetwork_v4 *, size_t, size_t *);
typedef ipnetwork_fault (*operation_v6)(const ipnetwork_v6 *, size_t, const ipnetwork_v6 *, size_t, ipnetwork_v6 *, size_t, size_t *);

static const operation_v4 operations_v4[] = {ipnetwork_v4_union, ipnetwork_v4_intersection, ipnetwork_v4_difference};
static const operation_v6 operations_v6[] = {ipnetwork_v6_union, ipnetwork_v6_intersection, ipnetwork_v6_difference};

/* A random set within 256 addresses, with its blocks at the end of the memory, and a table of one byte for each
 * address. */
struct within_256 {
    size_t room, count;
    ipnetwork_v4 *four, *blocks;
    ipnetwork_v6 *six, *blocks_six;
    uint8_t has[256];
};

static struct within_256 random_set(size_t room) {
    struct within_256 set = {.room = room, .four = edge(room * sizeof *set.four), .six = edge(room * sizeof *set.six)};
    size_t again = 77;
    for (size_t i = 0; i < room; i++) {
        unsigned low = number() & 255, bits = number() % 7;
        set.four[i] = (ipnetwork_v4){{192, 0, 2, (uint8_t)low}, (uint8_t)(32 - bits)};
        set.six[i] = (ipnetwork_v6){{0x20, 1, 0x0d, 0xb8}, (uint8_t)(128 - bits)};
        set.six[i].address[15] = (uint8_t)low;
        memset(set.has + (low >> bits << bits), 1, 1u << bits);
    }
    CHECK("operands", ipnetwork_v4_aggregate(set.four, room, &set.count) == YES);
    CHECK("operands", ipnetwork_v6_aggregate(set.six, room, &again) == YES && again == set.count);
    set.blocks = set.four + (room - set.count);
    set.blocks_six = set.six + (room - set.count);
    memmove(set.blocks, set.four, set.count * sizeof *set.four);
    memmove(set.blocks_six, set.six, set.count * sizeof *set.six);
    return set;
}

static void leave_set(struct within_256 *set) {
    leave_edge(set->four, set->room * sizeof *set->four);
    leave_edge(set->six, set->room * sizeof *set->six);
}

/* One operation on two random sets: only the number of blocks, with a buffer that is one block too short, and with one
 * of exactly its size. */
static void operate(size_t which, const struct within_256 *a, const struct within_256 *b) {
    uint8_t has[256];
    size_t reported = 77, again = 77;
    for (unsigned low = 0; low < 256; low++)
        has[low] = which == 0 ? a->has[low] || b->has[low] : which == 1 ? a->has[low] && b->has[low] : a->has[low] && !b->has[low];
    ipnetwork_fault four = operations_v4[which](a->blocks, a->count, b->blocks, b->count, NULL, 0, &reported);
    ipnetwork_fault six = operations_v6[which](a->blocks_six, a->count, b->blocks_six, b->count, NULL, 0, &again);
    CHECK("operation", four == (reported == 0 ? YES : IPNETWORK_SHORT_BUFFER) && six == four && again == reported);
    CHECK("operation", which == 2 || reported <= a->count + b->count);
    size_t blocks = reported;
    ipnetwork_v4 *made = edge(blocks * sizeof *made);
    ipnetwork_v6 *made_six = edge(blocks * sizeof *made_six);
    if (blocks != 0) {
        made[0].prefix = made_six[0].prefix = 77;
        reported = again = 77;
        CHECK("operation", operations_v4[which](a->blocks, a->count, b->blocks, b->count, made, blocks - 1, &reported) == IPNETWORK_SHORT_BUFFER);
        CHECK("operation", operations_v6[which](a->blocks_six, a->count, b->blocks_six, b->count, made_six, blocks - 1, &again) == IPNETWORK_SHORT_BUFFER);
        CHECK("operation", reported == blocks && again == blocks && made[0].prefix == 77 && made_six[0].prefix == 77);
    }
    CHECK("operation", operations_v4[which](a->blocks, a->count, b->blocks, b->count, made, blocks, &reported) == YES && reported == blocks);
    CHECK("operation", operations_v6[which](a->blocks_six, a->count, b->blocks_six, b->count, made_six, blocks, &again) == YES && again == blocks);
    fewest("operation", made, made_six, blocks, has);
    leave_edge(made, blocks * sizeof *made);
    leave_edge(made_six, blocks * sizeof *made_six);
}

/* Each of two lists in place of the other, which is that of a set, and for an index: nothing is written, and the fault is
 * returned. */
static void refused_operands(ipnetwork_fault wanted, const ipnetwork_v4 *bad, const ipnetwork_v6 *bad_six, size_t count) {
    ipnetwork_v4 all = v4("0.0.0.0/0"), made = {{77}, 77};
    ipnetwork_v6 all_six = v6("::/0"), made_six = {{77}, 77};
    size_t reported = 77;
    for (size_t which = 0; which < 3; which++) {
        CHECK("no set", operations_v4[which](bad, count, &all, 1, &made, 1, &reported) == wanted);
        CHECK("no set", operations_v4[which](&all, 1, bad, count, &made, 1, &reported) == wanted);
        CHECK("no set", operations_v6[which](bad_six, count, &all_six, 1, &made_six, 1, &reported) == wanted);
        CHECK("no set", operations_v6[which](&all_six, 1, bad_six, count, &made_six, 1, &reported) == wanted);
        CHECK("no set", reported == 77 && made.prefix == 77 && made_six.prefix == 77);
    }
    uint32_t index[2] = {77, 77};
    CHECK("no set", ipnetwork_v4_index_make(bad, count, index, 2) == wanted);
    CHECK("no set", ipnetwork_v6_index_make(bad_six, count, index, 2) == wanted);
    CHECK("no set", ipnetwork_v4_index_make(bad, count, NULL, 0) == wanted);
    CHECK("no set", ipnetwork_v6_index_make(bad_six, count, NULL, 0) == wanted);
    CHECK("no set", index[0] == 77 && index[1] == 77);
}

static void operations(void) {
    for (size_t round = 0; round < 600; round++) {
        struct within_256 a = random_set(round % 9), b = random_set(round / 9 % 9);
        for (size_t which = 0; which < 3; which++) {
            operate(which, &a, &b);
            operate(which, &a, &a);
        }
        leave_set(&a);
        leave_set(&b);
    }
    ipnetwork_v4 all = v4("0.0.0.0/0"), ends[2] = {v4("0.0.0.0"), v4("255.255.255.255")}, made[64];
    ipnetwork_v6 all_six = v6("::/0"), made_six[256];
    ipnetwork_v6 ends_six[2] = {v6("::"), v6("ffff:ffff:ffff:ffff:ffff:ffff:ffff:ffff")};
    size_t reported = 77;
    CHECK("all", ipnetwork_v4_difference(&all, 1, ends, 2, made, 64, &reported) == YES && reported == 62);
    CHECK("all", ipnetwork_v4_union(made, reported, ends, 2, made + 63, 1, &reported) == YES && reported == 1 && made[63].prefix == 0);
    CHECK("all", ipnetwork_v6_difference(&all_six, 1, ends_six, 2, made_six, 256, &reported) == YES && reported == 254);
    CHECK("all", ipnetwork_v6_union(made_six, reported, ends_six, 2, made_six + 255, 1, &reported) == YES && reported == 1 && made_six[255].prefix == 0);
    CHECK("all", ipnetwork_v4_intersection(&all, 1, &all, 1, made, 64, &reported) == YES && reported == 1 && made[0].prefix == 0);
    CHECK("all", ipnetwork_v6_intersection(&all_six, 1, &all_six, 1, made_six, 256, &reported) == YES && reported == 1 && made_six[0].prefix == 0);
    ipnetwork_v4 halves[2] = {v4("10.0.0.0/9"), v4("10.128.0.0/9")}, turned[2] = {v4("10.0.1.0/24"), v4("10.0.0.0/25")};
    ipnetwork_v6 halves_six[2] = {v6("2001:db8::/33"), v6("2001:db8:8000::/33")}, turned_six[2] = {v6("2001:db9::/32"), v6("2001:db8::/33")};
    ipnetwork_v4 within[2] = {v4("10.0.0.0/8"), v4("10.1.0.0/16")}, host = v4("10.0.0.1/8"), past = v4("10.0.0.0/8");
    ipnetwork_v6 within_six[2] = {v6("2001:db8::/32"), v6("2001:db8:1::/48")}, host_six = v6("2001:db8::1/32"), past_six = v6("2001:db8::/32");
    past.prefix = 33;
    past_six.prefix = 129;
    refused_operands(IPNETWORK_NO_SET, halves, halves_six, 2);
    refused_operands(IPNETWORK_NO_SET, turned, turned_six, 2);
    refused_operands(IPNETWORK_NO_SET, within, within_six, 2);
    refused_operands(IPNETWORK_NO_SET, &host, &host_six, 1);
    refused_operands(PREF, &past, &past_six, 1);
}

static int in_order_v4(const void *one, const void *other) {
    int32_t order = 0;
    CHECK("order", ipnetwork_v4_compare(one, other, &order) == YES);
    return order;
}

static int in_order_v6(const void *one, const void *other) {
    int32_t order = 0;
    CHECK("order", ipnetwork_v6_compare(one, other, &order) == YES);
    return order;
}

/* Random tables within 256 addresses: for each of these, the longest block that has it, compared with that of a linear
 * search. */
static void tables(void) {
    for (size_t round = 0; round < 600; round++) {
        size_t count = round % 40;
        ipnetwork_v4 *four = edge(count * sizeof *four);
        ipnetwork_v6 *six = edge(count * sizeof *six);
        for (size_t i = 0; i < count; i++) {
            unsigned bits = number() % 9, low = (number() & 255) >> bits << bits;
            four[i] = (ipnetwork_v4){{192, 0, 2, (uint8_t)low}, (uint8_t)(32 - bits)};
            six[i] = (ipnetwork_v6){{0x20, 1, 0x0d, 0xb8}, (uint8_t)(128 - bits)};
            six[i].address[15] = (uint8_t)low;
        }
        qsort(four, count, sizeof *four, in_order_v4);
        qsort(six, count, sizeof *six, in_order_v6);
        for (unsigned host = 0; host < 256; host++) {
            uint8_t address[4] = {192, 0, 2, (uint8_t)host}, address_six[16] = {0x20, 1, 0x0d, 0xb8}, has = 77;
            address_six[15] = (uint8_t)host;
            int longest = -1;
            for (size_t i = 0; i < count; i++) {
                CHECK("table", ipnetwork_v4_contains(&four[i], address, &has) == YES);
                if (has == 1 && (int)four[i].prefix > longest) longest = four[i].prefix;
            }
            size_t index = 77, again = 77;
            ipnetwork_fault reported = ipnetwork_v4_index_find(four, count, NULL, 0, address, &index);
            CHECK("table", reported == (longest < 0 ? IPNETWORK_NO_MEMBER : YES));
            CHECK("table", ipnetwork_v6_index_find(six, count, NULL, 0, address_six, &again) == reported);
            if (longest < 0) {
                CHECK("table", index == 77 && again == 77);
                continue;
            }
            CHECK("table", index < count && four[index].prefix == longest);
            CHECK("table", again < count && six[again].prefix == longest + 96);
            CHECK("table", ipnetwork_v4_contains(&four[index], address, &has) == YES && has == 1);
            CHECK("table", ipnetwork_v6_contains(&six[again], address_six, &has) == YES && has == 1);
        }
        leave_edge(four, count * sizeof *four);
        leave_edge(six, count * sizeof *six);
    }
    ipnetwork_v4 past = v4("10.0.0.0/8");
    ipnetwork_v6 past_six = v6("::/8");
    size_t index = 77;
    past.prefix = 33;
    past_six.prefix = 129;
    CHECK("past", ipnetwork_v4_index_find(&past, 1, NULL, 0, past.address, &index) == PREF && index == 77);
    CHECK("past", ipnetwork_v6_index_find(&past_six, 1, NULL, 0, past_six.address, &index) == PREF && index == 77);
    CHECK("NULL", ipnetwork_v4_index_find(NULL, 0, NULL, 0, past.address, &index) == IPNETWORK_NO_MEMBER && index == 77);
    CHECK("NULL", ipnetwork_v6_index_find(NULL, 0, NULL, 0, past_six.address, &index) == IPNETWORK_NO_MEMBER && index == 77);
    /* After a block without the address, the search goes on and reaches the struct; after one with it, it does not. */
    ipnetwork_v4 table[2] = {past, v4("10.1.0.0/16")};
    ipnetwork_v6 table_six[2] = {past_six, v6("1::/16")};
    const uint8_t outside[4] = {10, 2, 0, 1}, inside[4] = {10, 1, 0, 1};
    const uint8_t outside_six[16] = {0, 2}, inside_six[16] = {0, 1};
    CHECK("past", ipnetwork_v4_index_find(table, 2, NULL, 0, outside, &index) == PREF && index == 77);
    CHECK("past", ipnetwork_v6_index_find(table_six, 2, NULL, 0, outside_six, &index) == PREF && index == 77);
    CHECK("past", ipnetwork_v4_index_find(table, 2, NULL, 0, inside, &index) == YES && index == 1);
    index = 77;
    CHECK("past", ipnetwork_v6_index_find(table_six, 2, NULL, 0, inside_six, &index) == YES && index == 1);
}

/* A random network within 256 addresses, of either family, with host bits. */
static void random_network(ipnetwork_v4 *four, ipnetwork_v6 *six) {
    unsigned bits = number() % 9, host = number() & 255;
    *four = (ipnetwork_v4){{192, 0, 2, (uint8_t)host}, (uint8_t)(32 - bits)};
    *six = (ipnetwork_v6){{0x20, 1, 0x0d, 0xb8}, (uint8_t)(128 - bits)};
    six->address[15] = (uint8_t)host;
}

/* Tables of random networks: each network has its block, the blocks ascend, and equal ones are in the order of the
 * networks. */
static void tables_made(void) {
    for (size_t round = 0; round < 600; round++) {
        size_t count = round % 40, room = count + round % 3;
        ipnetwork_v4 *four = edge(count * sizeof *four), *fours = edge(room * sizeof *fours), block;
        ipnetwork_v6 *six = edge(count * sizeof *six), *sixes = edge(room * sizeof *sixes), block_six;
        size_t *places = edge(room * sizeof *places), *places_six = edge(room * sizeof *places_six);
        for (size_t i = 0; i < count; i++) random_network(&four[i], &six[i]);
        memset(fours, 77, room * sizeof *fours);
        memset(sixes, 77, room * sizeof *sixes);
        memset(places, 77, room * sizeof *places);
        memset(places_six, 77, room * sizeof *places_six);
        CHECK("made", ipnetwork_v4_table_make(four, count, fours, room, places, room) == YES);
        CHECK("made", ipnetwork_v6_table_make(six, count, sixes, room, places_six, room) == YES);
        for (size_t i = 0; i < count; i++) {
            size_t place = places[i];
            int32_t order = 77;
            CHECK("made", place < count && places_six[i] == place);
            CHECK("made", ipnetwork_v4_network(&four[place], block.address) == YES);
            CHECK("made", ipnetwork_v6_network(&six[place], block_six.address) == YES);
            block.prefix = four[place].prefix;
            block_six.prefix = six[place].prefix;
            CHECK("made", memcmp(&fours[i], &block, sizeof block) == 0 && memcmp(&sixes[i], &block_six, sizeof block_six) == 0);
            if (i == 0) continue;
            CHECK("made", ipnetwork_v4_compare(&fours[i - 1], &fours[i], &order) == YES);
            CHECK("made", order < 0 || (order == 0 && places[i - 1] < place));
        }
        for (size_t i = count * sizeof *fours; i < room * sizeof *fours; i++) CHECK("past", ((uint8_t *)fours)[i] == 77);
        for (size_t i = count * sizeof *places; i < room * sizeof *places; i++) CHECK("past", ((uint8_t *)places)[i] == 77);
        /* For each address, the last of the networks with the greatest prefix length that have it. */
        uint8_t addresses[256][4], addresses_six[256][16] = {{0}}, faults[258], faults_six[258];
        size_t *indexes = edge(257 * sizeof *indexes), *indexes_six = edge(257 * sizeof *indexes_six);
        memset(indexes, 77, 257 * sizeof *indexes);
        memset(indexes_six, 77, 257 * sizeof *indexes_six);
        memset(faults, 77, sizeof faults);
        memset(faults_six, 77, sizeof faults_six);
        for (unsigned host = 0; host < 256; host++) {
            memcpy(addresses[host], ((uint8_t[]){192, 0, 2, (uint8_t)host}), 4);
            memcpy(addresses_six[host], ((uint8_t[]){0x20, 1, 0x0d, 0xb8}), 4);
            addresses_six[host][15] = (uint8_t)host;
        }
        CHECK("column", ipnetwork_v4_index_find_column(fours, count, NULL, 0, addresses[0], 256, indexes, 255, faults, 257) == IPNETWORK_SHORT_BUFFER);
        CHECK("column", ipnetwork_v6_index_find_column(sixes, count, NULL, 0, addresses_six[0], 256, indexes, 257, faults, 255) == IPNETWORK_SHORT_BUFFER);
        for (size_t i = 0; i < 257 * sizeof *indexes; i++) CHECK("written", ((uint8_t *)indexes)[i] == 77);
        for (size_t i = 0; i < sizeof faults; i++) CHECK("written", faults[i] == 77);
        CHECK("column", ipnetwork_v4_index_find_column(fours, count, NULL, 0, addresses[0], 256, indexes, 257, faults, 257) == YES);
        CHECK("column", ipnetwork_v6_index_find_column(sixes, count, NULL, 0, addresses_six[0], 256, indexes_six, 257, faults_six, 257) == YES);
        CHECK("past", faults[256] == 77 && faults_six[256] == 77);
        for (size_t i = 256 * sizeof *indexes; i < 257 * sizeof *indexes; i++)
            CHECK("past", ((uint8_t *)indexes)[i] == 77 && ((uint8_t *)indexes_six)[i] == 77);
        for (unsigned host = 0; host < 256; host++) {
            size_t wanted = count, alone = 77;
            for (size_t i = 0; i < count; i++) {
                uint8_t has = 77;
                CHECK("made", ipnetwork_v4_contains(&four[i], addresses[host], &has) == YES);
                if (has == 1 && (wanted == count || four[i].prefix >= four[wanted].prefix)) wanted = i;
            }
            CHECK("column", ipnetwork_v4_index_find(fours, count, NULL, 0, addresses[host], &alone) == faults[host]);
            CHECK("column", faults[host] == (wanted == count ? IPNETWORK_NO_MEMBER : YES) && faults_six[host] == faults[host]);
            CHECK("column", indexes_six[host] == indexes[host]);
            if (wanted == count) CHECK("column", ((uint8_t *)&indexes[host])[0] == 77);
            else CHECK("column", indexes[host] == alone && places[alone] == wanted);
        }
        if (count > 0) {
            CHECK("made", ipnetwork_v4_table_make(four, count, fours, count - 1, places, count) == IPNETWORK_SHORT_BUFFER);
            CHECK("made", ipnetwork_v6_table_make(six, count, sixes, count, places_six, count - 1) == IPNETWORK_SHORT_BUFFER);
            four[round % count].prefix = 33;
            six[round % count].prefix = 129;
            CHECK("made", ipnetwork_v4_table_make(four, count, fours, 0, places, count) == PREF);
            CHECK("made", ipnetwork_v6_table_make(six, count, sixes, count, places_six, count) == PREF);
            CHECK("made", places[0] < count && places_six[0] == places[0]);
        }
        leave_edge(four, count * sizeof *four);
        leave_edge(six, count * sizeof *six);
        leave_edge(fours, room * sizeof *fours);
        leave_edge(sixes, room * sizeof *sixes);
        leave_edge(places, room * sizeof *places);
        leave_edge(places_six, room * sizeof *places_six);
        leave_edge(indexes, 257 * sizeof *indexes);
        leave_edge(indexes_six, 257 * sizeof *indexes_six);
    }
    CHECK("NULL", ipnetwork_v4_table_make(NULL, 0, NULL, 0, NULL, 0) == YES);
    CHECK("NULL", ipnetwork_v6_table_make(NULL, 0, NULL, 0, NULL, 0) == YES);
    CHECK("NULL", ipnetwork_v4_index_find_column(NULL, 0, NULL, 0, NULL, 0, NULL, 0, NULL, 0) == YES);
    CHECK("NULL", ipnetwork_v6_index_find_column(NULL, 0, NULL, 0, NULL, 0, NULL, 0, NULL, 0) == YES);
    /* A row whose search reaches a prefix length greater than the width has that fault, and does not stop the
     * others. */
    ipnetwork_v4 bad[2] = {v4("10.0.0.0/8"), v4("192.0.2.0/24")};
    uint8_t asked[3][4] = {{10, 0, 0, 1}, {192, 0, 2, 1}, {9, 0, 0, 1}}, reported[3] = {77, 77, 77};
    size_t found[3] = {77, 77, 77};
    bad[1].prefix = 33;
    CHECK("past", ipnetwork_v4_index_find_column(bad, 2, NULL, 0, asked[0], 3, found, 3, reported, 3) == YES);
    CHECK("past", reported[0] == YES && reported[1] == PREF && reported[2] == IPNETWORK_NO_MEMBER && found[0] == 0 && found[1] == 77 && found[2] == 77);
}

/* What an index must hold, counted from numbers in ascending order in the simplest way. The span is less than 2^32. */
static void plain_index(const uint32_t *starts, size_t count, uint32_t *index, size_t length) {
    uint32_t span = count == 0 ? 0 : starts[count - 1] - starts[0], shift = 0;
    while (shift < 32 && (uint64_t)span >> shift >= length) shift++;
    for (size_t part = 0; part < length; part++) {
        index[part] = 0;
        for (size_t i = 0; i < count; i++)
            if ((uint64_t)(starts[i] - starts[0]) < (uint64_t)part << shift) index[part]++;
    }
    if (length > 0) index[0] = shift;
}

/* The results by an index, for each address and as a column, are those of the calls that search without one. */
static void asked_by(const ipnetwork_v4 *fours, const ipnetwork_v6 *sixes, size_t count, const uint32_t *index, size_t length,
                     uint8_t (*addresses)[4], uint8_t (*addresses_six)[16], size_t asked) {
    uint8_t answers[300], answers_six[300], faults[300], faults_six[300], found_faults[300], found_faults_six[300];
    size_t places[300], places_six[300];
    memset(answers, 77, sizeof answers);
    memset(answers_six, 77, sizeof answers_six);
    memset(faults, 77, sizeof faults);
    memset(places, 77, sizeof places);
    memset(places_six, 77, sizeof places_six);
    CHECK("column", ipnetwork_v4_index_contains_column(fours, count, index, length, addresses[0], asked, answers, asked, faults, 300) == YES);
    CHECK("column", ipnetwork_v6_index_contains_column(sixes, count, index, length, addresses_six[0], asked, answers_six, 300, faults_six, asked) == YES);
    CHECK("column", ipnetwork_v4_index_find_column(fours, count, index, length, addresses[0], asked, places, asked, found_faults, 300) == YES);
    CHECK("column", ipnetwork_v6_index_find_column(sixes, count, index, length, addresses_six[0], asked, places_six, 300, found_faults_six, asked) == YES);
    CHECK("past", answers[asked] == 77 && faults[asked] == 77 && ((uint8_t *)places)[asked * sizeof *places] == 77);
    for (size_t i = 0; i < asked; i++) {
        uint8_t answer = 77, by_index = 77;
        size_t place, found;
        memset(&place, 77, sizeof place);
        found = place;
        CHECK("index", ipnetwork_v4_index_contains(fours, count, NULL, 0, addresses[i], &answer) == faults[i] && answer == answers[i]);
        CHECK("index", ipnetwork_v4_index_contains(fours, count, index, length, addresses[i], &by_index) == faults[i] && by_index == answer);
        CHECK("index", ipnetwork_v4_index_find(fours, count, NULL, 0, addresses[i], &place) == found_faults[i] && place == places[i]);
        CHECK("index", ipnetwork_v4_index_find(fours, count, index, length, addresses[i], &found) == found_faults[i] && found == place);
        answer = by_index = 77;
        memset(&place, 77, sizeof place);
        found = place;
        CHECK("index", ipnetwork_v6_index_contains(sixes, count, NULL, 0, addresses_six[i], &answer) == faults_six[i] && answer == answers_six[i]);
        CHECK("index", ipnetwork_v6_index_contains(sixes, count, index, length, addresses_six[i], &by_index) == faults_six[i] && by_index == answer);
        CHECK("index", ipnetwork_v6_index_find(sixes, count, NULL, 0, addresses_six[i], &place) == found_faults_six[i] && place == places_six[i]);
        CHECK("index", ipnetwork_v6_index_find(sixes, count, index, length, addresses_six[i], &found) == found_faults_six[i] && found == place);
    }
}

/* Indexes of lists of random networks, sets and tables, of every length up to 40, and searches by them; then searches
 * by indexes with other contents. */
static void indexes(void) {
    uint8_t addresses[258][4], addresses_six[258][16] = {{0}};
    for (unsigned host = 0; host < 256; host++) {
        memcpy(addresses[host], ((uint8_t[]){192, 0, 2, (uint8_t)host}), 4);
        memcpy(addresses_six[host], ((uint8_t[]){0x20, 1, 0x0d, 0xb8}), 4);
        addresses_six[host][15] = (uint8_t)host;
    }
    memset(addresses[256], 0, 4);
    memset(addresses[257], 255, 4);
    memset(addresses_six[257], 255, 16);
    for (size_t round = 0; round < 400; round++) {
        size_t count = round % 21, length = number() % 41, reported = count, reported_six = count;
        ipnetwork_v4 *four = edge(count * sizeof *four), *fours = edge(count * sizeof *fours);
        ipnetwork_v6 *six = edge(count * sizeof *six), *sixes = edge(count * sizeof *sixes);
        size_t places[20];
        uint32_t *index = edge(length * sizeof *index), *index_six = edge(length * sizeof *index_six), wanted[41], starts[20] = {0};
        for (size_t i = 0; i < count; i++) random_network(&four[i], &six[i]);
        /* Some lists have a network far away from the others. */
        if (count > 0 && round % 3 == 0) {
            four[0].address[0] = 250;
            six[0].address[14] = 200;
        }
        if (round % 2 == 0) {
            memcpy(fours, four, count * sizeof *four);
            memcpy(sixes, six, count * sizeof *six);
            CHECK("index", ipnetwork_v4_aggregate(fours, count, &reported) == YES && ipnetwork_v6_aggregate(sixes, count, &reported_six) == YES);
        } else {
            CHECK("index", ipnetwork_v4_table_make(four, count, fours, count, places, count) == YES);
            CHECK("index", ipnetwork_v6_table_make(six, count, sixes, count, places, count) == YES);
        }
        for (size_t i = 0; i < reported; i++)
            starts[i] = (uint32_t)fours[i].address[0] << 24 | (uint32_t)fours[i].address[1] << 16 | (uint32_t)fours[i].address[2] << 8 | fours[i].address[3];
        plain_index(starts, reported, wanted, length);
        if (round % 2 == 0) {
            CHECK("index", ipnetwork_v4_index_make(fours, reported, index, length) == YES);
            CHECK("index", ipnetwork_v6_index_make(sixes, reported_six, index_six, length) == YES);
            CHECK("index", memcmp(index, wanted, length * sizeof *index) == 0);
        }
        CHECK("index", ipnetwork_v4_table_index_make(fours, reported, index, length) == YES);
        CHECK("index", ipnetwork_v6_table_index_make(sixes, reported_six, index_six, length) == YES);
        CHECK("index", memcmp(index, wanted, length * sizeof *index) == 0);
        asked_by(fours, sixes, reported, index, length, addresses, addresses_six, 258);
        if (reported_six == reported) asked_by(fours, sixes, reported, index_six, length, addresses, addresses_six, 258);
        for (size_t i = 0; i < reported_six; i++)
            starts[i] = (uint32_t)sixes[i].address[14] << 8 | sixes[i].address[15];
        plain_index(starts, reported_six, wanted, length);
        CHECK("index", memcmp(index_six, wanted, length * sizeof *index) == 0);
        for (size_t i = 0; i < length; i++) index[i] = number() % 4 == 0 ? number() * 65537u : number() % 24;
        if (reported_six == reported) asked_by(fours, sixes, reported, index, length, addresses, addresses_six, 258);
        if (reported > 0 && reported_six == reported) {
            fours[round % reported].prefix = 33;
            sixes[round % reported].prefix = 129;
            asked_by(fours, sixes, reported, index_six, length, addresses, addresses_six, 258);
            asked_by(fours, sixes, reported, index, length, addresses, addresses_six, 258);
        }
        leave_edge(four, count * sizeof *four);
        leave_edge(fours, count * sizeof *fours);
        leave_edge(six, count * sizeof *six);
        leave_edge(sixes, count * sizeof *sixes);
        leave_edge(index, length * sizeof *index);
        leave_edge(index_six, length * sizeof *index_six);
    }
    /* An index of one number: the size of the only part, which has all blocks. */
    ipnetwork_v4 four[3] = {v4("0.0.0.0"), v4("0.0.0.13"), v4("255.255.255.255")};
    ipnetwork_v6 six[3] = {v6("::"), v6("::ffff"), v6("ffff:ffff:ffff:ffff:ffff:ffff:ffff:ffff")};
    uint32_t one = 77;
    CHECK("one number", ipnetwork_v4_index_make(four, 1, &one, 1) == YES && one == 0);
    CHECK("one number", ipnetwork_v6_index_make(six, 2, &one, 1) == YES && one == 16);
    CHECK("one number", ipnetwork_v4_index_make(four, 2, &one, 1) == YES && one == 4);
    asked_by(four, six, 2, &one, 1, addresses, addresses_six, 258);
    CHECK("one number", ipnetwork_v4_index_make(four, 3, &one, 1) == YES && one == 32);
    CHECK("one number", ipnetwork_v6_index_make(six, 3, &one, 1) == YES && one == 128);
    asked_by(four, six, 3, &one, 1, addresses, addresses_six, 258);
    size_t size = 77;
    CHECK("size", ipnetwork_index_size(0, &size) == YES && size == 0);
    CHECK("size", ipnetwork_index_size(300, &size) == YES && size == 1200);
    CHECK("size", ipnetwork_index_size(SIZE_MAX, &size) == YES && size == 1048576);
    uint8_t answer = 77, none[1] = {77};
    uint32_t few[4] = {77, 77, 77, 77};
    CHECK("NULL", ipnetwork_v4_index_make(NULL, 0, few, 4) == YES && is_blank(few, sizeof few));
    CHECK("NULL", ipnetwork_v6_index_make(NULL, 0, NULL, 0) == YES);
    CHECK("NULL", ipnetwork_v4_index_contains(NULL, 0, NULL, 0, addresses[0], &answer) == YES && answer == 0);
    CHECK("NULL", ipnetwork_v6_index_find(NULL, 0, few, 4, addresses_six[0], &size) == IPNETWORK_NO_MEMBER && size == 1048576);
    CHECK("NULL", ipnetwork_v4_index_contains_column(NULL, 0, NULL, 0, NULL, 0, NULL, 0, NULL, 0) == YES);
    CHECK("NULL", ipnetwork_v6_index_find_column(NULL, 0, NULL, 0, NULL, 0, NULL, 0, NULL, 0) == YES);
    CHECK("room", ipnetwork_v4_index_contains_column(NULL, 0, few, 4, addresses[0], 2, &answer, 1, none, 1) == IPNETWORK_SHORT_BUFFER);
    CHECK("room", ipnetwork_v6_index_contains_column(NULL, 0, few, 4, addresses_six[0], 1, &answer, 1, none, 0) == IPNETWORK_SHORT_BUFFER);
    CHECK("room", ipnetwork_v4_index_find_column(NULL, 0, few, 4, addresses[0], 1, &size, 0, none, 1) == IPNETWORK_SHORT_BUFFER);
    CHECK("room", ipnetwork_v6_index_find_column(NULL, 0, few, 4, addresses_six[0], 2, &size, 1, none, 1) == IPNETWORK_SHORT_BUFFER);
    CHECK("room", answer == 0 && none[0] == 77 && size == 1048576);
}

/* The place of the longest block with the address, and of equal ones of the last, found in the simplest way: by its
 * bits. */
static size_t plain_longest(const uint8_t *blocks, size_t count, size_t width, const uint8_t *address) {
    size_t longest = IPNETWORK_NO_PLACE;
    for (size_t i = 0; i < count; i++) {
        const uint8_t *block = blocks + i * (width + 1);
        int has = 1;
        for (unsigned bit = 0; bit < block[width]; bit++)
            has &= ((block[bit / 8] ^ address[bit / 8]) >> (7 - bit % 8) & 1) == 0;
        if (has && (longest == IPNETWORK_NO_PLACE || block[width] >= blocks[longest * (width + 1) + width])) longest = i;
    }
    return longest;
}

/* Ranges of one family, with structs and addresses of this many octets. */
struct ranges_of_table {
    size_t width, count;
    uint8_t *structs;
    size_t *places;
    uint32_t *index;
    size_t index_length;
};

static ipnetwork_fault found_by(const struct ranges_of_table *of, size_t place_count, const uint8_t *address, size_t *place) {
    if (of->width == 4)
        return ipnetwork_v4_ranges_find((const ipnetwork_v4 *)of->structs, of->count, of->places, place_count, of->index, of->index_length, address, place);
    return ipnetwork_v6_ranges_find((const ipnetwork_v6 *)of->structs, of->count, of->places, place_count, of->index, of->index_length, address, place);
}

static size_t place_by(const struct ranges_of_table *of, size_t place_count, const uint8_t *address) {
    if (of->width == 4)
        return ipnetwork_v4_ranges_place((const ipnetwork_v4 *)of->structs, of->count, of->places, place_count, of->index, of->index_length, address).place;
    return ipnetwork_v6_ranges_place((const ipnetwork_v6 *)of->structs, of->count, of->places, place_count, of->index, of->index_length, address).place;
}

static ipnetwork_fault column_by(const struct ranges_of_table *of, size_t place_count, const uint8_t *addresses, size_t asked, size_t *places, size_t room, uint8_t *faults, size_t fault_room) {
    if (of->width == 4)
        return ipnetwork_v4_ranges_find_column((const ipnetwork_v4 *)of->structs, of->count, of->places, place_count, of->index, of->index_length, addresses, asked, places, room, faults, fault_room);
    return ipnetwork_v6_ranges_find_column((const ipnetwork_v6 *)of->structs, of->count, of->places, place_count, of->index, of->index_length, addresses, asked, places, room, faults, fault_room);
}

/* If no block has the address, nothing is written, even where the memory cannot be. */
static void nothing_is_written(const struct ranges_of_table *of, const uint8_t *blocks, size_t count, const uint8_t *addresses, size_t asked) {
    uint8_t without[300 * 16], faults[300];
    size_t *place = read_only_page(), rows = 0;
    for (size_t i = 0; i < asked; i++) {
        const uint8_t *address = addresses + i * of->width;
        if (plain_longest(blocks, count, of->width, address) != IPNETWORK_NO_PLACE) continue;
        CHECK("ranges", found_by(of, of->count, address, place) == IPNETWORK_NO_MEMBER);
        memcpy(without + rows++ * of->width, address, of->width);
    }
    CHECK("ranges", column_by(of, of->count, without, rows, place, rows, faults, rows) == YES);
    for (size_t i = 0; i < rows; i++) CHECK("ranges", faults[i] == IPNETWORK_NO_MEMBER);
    if (munmap(place, (size_t)sysconf(_SC_PAGESIZE)) != 0)
        abort();
}

/* The same ranges with numbers: one number more than blocks, the last of which belongs to no block. */
static void numbers_of_ranges(const struct ranges_of_table *of, const uint8_t *blocks, size_t count) {
    size_t room = 2 * count, stride = of->width + 1, reported = 77;
    size_t *numbers = edge((count + 1) * sizeof *numbers), *range_numbers = edge((room + 1) * sizeof *range_numbers);
    uint8_t *structs = edge((room + 1) * stride);
    for (size_t i = 0; i <= count; i++) numbers[i] = 1000 + 3 * i;
    memset(range_numbers, 77, (room + 1) * sizeof *range_numbers);
    memset(structs, 77, (room + 1) * stride);
    ipnetwork_fault made = of->width == 4
        ? ipnetwork_v4_ranges_make_numbered((const ipnetwork_v4 *)blocks, count, numbers, count + 1, of->index, of->index_length, (ipnetwork_v4 *)structs, room, range_numbers, room + 1, &reported)
        : ipnetwork_v6_ranges_make_numbered((const ipnetwork_v6 *)blocks, count, numbers, count + 1, of->index, of->index_length, (ipnetwork_v6 *)structs, room, range_numbers, room + 1, &reported);
    CHECK("numbered", made == YES && reported == of->count && memcmp(structs, of->structs, reported * stride) == 0);
    for (size_t i = 0; i < reported; i++)
        CHECK("numbered", range_numbers[i] == (of->places[i] == IPNETWORK_NO_PLACE ? IPNETWORK_NO_PLACE : 1000 + 3 * of->places[i]));
    for (size_t i = reported * stride; i < (room + 1) * stride; i++) CHECK("numbered", structs[i] == 77);
    for (size_t i = reported * sizeof *range_numbers; i < (room + 1) * sizeof *range_numbers; i++) CHECK("numbered", ((uint8_t *)range_numbers)[i] == 77);
    if (count > 0) {
        size_t kept = reported = 77;
        CHECK("fewer numbers", (of->width == 4 ? ipnetwork_v4_ranges_make_numbered((const ipnetwork_v4 *)blocks, count, numbers, count - 1, of->index, of->index_length, (ipnetwork_v4 *)structs, room, range_numbers, room, &reported)
                                               : ipnetwork_v6_ranges_make_numbered((const ipnetwork_v6 *)blocks, count, numbers, count - 1, of->index, of->index_length, (ipnetwork_v6 *)structs, room, range_numbers, room, &reported)) == IPNETWORK_SHORT_BUFFER && reported == kept);
        CHECK("room", (of->width == 4 ? ipnetwork_v4_ranges_make_numbered((const ipnetwork_v4 *)blocks, count, numbers, count, of->index, of->index_length, (ipnetwork_v4 *)structs, room - 1, range_numbers, room, &reported)
                                      : ipnetwork_v6_ranges_make_numbered((const ipnetwork_v6 *)blocks, count, numbers, count, of->index, of->index_length, (ipnetwork_v6 *)structs, room, range_numbers, room - 1, &reported)) == IPNETWORK_SHORT_BUFFER && reported == kept);
    }
    leave_edge(numbers, (count + 1) * sizeof *numbers);
    leave_edge(range_numbers, (room + 1) * sizeof *range_numbers);
    leave_edge(structs, (room + 1) * stride);
}


/* The ranges of a table begin where they must, and each address has the place that a linear search of the table finds,
 * in a call for one address and in a column, whatever the index holds. */
static void asked_ranges(const uint8_t *blocks, size_t count, size_t width, const uint8_t *addresses, size_t asked) {
    struct ranges_of_table of = {width, 77, edge((2 * count + 1) * (width + 1)), edge((2 * count + 1) * sizeof(size_t)), edge(80), 20};
    size_t stride = width + 1, room = 2 * count + 1, found[300];
    uint8_t faults[300];
    memset(of.structs, 77, room * stride);
    memset(of.places, 77, room * sizeof *of.places);
    /* Without an index, with that of the table, and with one of arbitrary numbers. */
    for (size_t i = 0; i < 20; i++) of.index[i] = number() % 4 == 0 ? number() * 65537u : number() % 24;
    if (count % 3 == 1) CHECK("ranges", (width == 4 ? ipnetwork_v4_table_index_make((const ipnetwork_v4 *)blocks, count, of.index, 20)
                                                    : ipnetwork_v6_table_index_make((const ipnetwork_v6 *)blocks, count, of.index, 20)) == YES);
    size_t by = count % 3 == 0 ? 0 : 20;
    ipnetwork_fault made = width == 4
        ? ipnetwork_v4_ranges_make((const ipnetwork_v4 *)blocks, count, of.index, by, (ipnetwork_v4 *)of.structs, room, of.places, 2 * count, &of.count)
        : ipnetwork_v6_ranges_make((const ipnetwork_v6 *)blocks, count, of.index, by, (ipnetwork_v6 *)of.structs, 2 * count, of.places, room, &of.count);
    CHECK("ranges", made == YES && of.count <= 2 * count && of.count >= count);
    for (size_t i = of.count * stride; i < room * stride; i++) CHECK("ranges", of.structs[i] == 77);
    for (size_t i = of.count * sizeof(size_t); i < room * sizeof(size_t); i++) CHECK("ranges", ((uint8_t *)of.places)[i] == 77);
    for (size_t i = 0; i < of.count; i++) {
        CHECK("ranges", of.structs[i * stride + width] == 8 * width);
        CHECK("ranges", i == 0 || memcmp(of.structs + (i - 1) * stride, of.structs + i * stride, width) <= 0);
        CHECK("ranges", of.places[i] == plain_longest(blocks, count, width, of.structs + i * stride));
    }
    for (int turn = 0; turn < 3; turn++) {
        if (turn == 0) of.index_length = 0;
        if (turn == 1) of.index_length = 20;
        if (turn == 1) CHECK("ranges", (width == 4 ? ipnetwork_v4_table_index_make((const ipnetwork_v4 *)of.structs, of.count, of.index, 20)
                                                  : ipnetwork_v6_table_index_make((const ipnetwork_v6 *)of.structs, of.count, of.index, 20)) == YES);
        if (turn == 2)
            for (size_t i = 0; i < 20; i++) of.index[i] = number() % 4 == 0 ? number() * 65537u : number() % 24;
        memset(found, 77, sizeof found);
        memset(faults, 77, sizeof faults);
        CHECK("ranges", column_by(&of, of.count, addresses, asked, found, asked, faults, 300) == YES);
        CHECK("ranges", ((uint8_t *)found)[asked * sizeof *found] == 77 && faults[asked] == 77);
        for (size_t i = 0; i < asked; i++) {
            size_t place, wanted = plain_longest(blocks, count, width, addresses + i * width), blank;
            memset(&place, 77, sizeof place);
            blank = place;
            CHECK("ranges", found_by(&of, of.count, addresses + i * width, &place) == faults[i]);
            CHECK("ranges", faults[i] == (wanted == IPNETWORK_NO_PLACE ? IPNETWORK_NO_MEMBER : YES));
            CHECK("ranges", place == (faults[i] == YES ? wanted : blank) && found[i] == place);
            CHECK("ranges", found_by(&of, 0, addresses + i * width, &place) == IPNETWORK_NO_MEMBER);
            CHECK("ranges", place_by(&of, of.count, addresses + i * width) == wanted && place_by(&of, 0, addresses + i * width) == IPNETWORK_NO_PLACE);
        }
    }
    if (of.count > 0) {
        /* The last range has no place. */
        const uint8_t *last = of.structs + (of.count - 1) * stride;
        size_t place = 77;
        CHECK("fewer places", place_by(&of, of.count - 1, last) == IPNETWORK_NO_PLACE);
        CHECK("fewer places", found_by(&of, of.count - 1, last, &place) == IPNETWORK_NO_MEMBER && place == 77);
        CHECK("fewer places", column_by(&of, of.count - 1, last, 1, &place, 1, faults, 1) == YES && faults[0] == IPNETWORK_NO_MEMBER);
    }
    if (count > 0) {
        size_t reported = 77;
        CHECK("room", (width == 4 ? ipnetwork_v4_ranges_make((const ipnetwork_v4 *)blocks, count, NULL, 0, (ipnetwork_v4 *)of.structs, 2 * count - 1, of.places, room, &reported)
                                  : ipnetwork_v6_ranges_make((const ipnetwork_v6 *)blocks, count, NULL, 0, (ipnetwork_v6 *)of.structs, room, of.places, 2 * count - 1, &reported)) == IPNETWORK_SHORT_BUFFER && reported == 77);
        CHECK("room", column_by(&of, of.count, addresses, 2, found, 1, faults, 2) == IPNETWORK_SHORT_BUFFER && column_by(&of, of.count, addresses, 2, found, 2, faults, 1) == IPNETWORK_SHORT_BUFFER);
    }
    numbers_of_ranges(&of, blocks, count);
    nothing_is_written(&of, blocks, count, addresses, asked);
    leave_edge(of.structs, room * stride);
    leave_edge(of.places, room * sizeof *of.places);
    leave_edge(of.index, 80);
}

/* Tables made of random networks, and of networks at the first and last addresses. */
static void table_ranges(void) {
    uint8_t addresses[260][4], addresses_six[260][16] = {{0}};
    for (unsigned host = 0; host < 256; host++) {
        memcpy(addresses[host], ((uint8_t[]){192, 0, 2, (uint8_t)host}), 4);
        memcpy(addresses_six[host], ((uint8_t[]){0x20, 1, 0x0d, 0xb8}), 4);
        addresses_six[host][15] = (uint8_t)host;
    }
    memset(addresses[256], 0, 8);
    memset(addresses[258], 255, 8);
    memset(addresses_six[258], 255, 32);
    addresses[257][3] = addresses_six[257][15] = 1;
    addresses[259][3] = addresses_six[259][15] = 254;
    static const char *ends[] = {"0.0.0.0/0", "0.0.0.0/32", "0.0.0.1/32", "255.255.255.255/32", "255.255.255.254/31", "192.0.2.0/24", "192.0.2.0/25", "192.0.2.64/26", "192.0.2.127/32", "192.0.2.128/25", "128.0.0.0/1"};
    static const char *ends_six[] = {"::/0", "::/128", "::1/128", "ffff:ffff:ffff:ffff:ffff:ffff:ffff:ffff/128", "ffff:ffff:ffff:ffff:ffff:ffff:ffff:fffe/127", "2001:db8::/120", "2001:db8::/121", "2001:db8::40/122", "2001:db8::7f/128", "2001:db8::80/121", "8000::/1"};
    enum { ENDS = sizeof ends / sizeof *ends };
    for (size_t round = 0; round < 600; round++) {
        size_t count = round % 23, places[23];
        ipnetwork_v4 *four = edge(count * sizeof *four), *fours = edge(count * sizeof *fours);
        ipnetwork_v6 *six = edge(count * sizeof *six), *sixes = edge(count * sizeof *sixes);
        for (size_t i = 0; i < count; i++) {
            random_network(&four[i], &six[i]);
            if (round % 2 == 0) {
                size_t end = number() % ENDS;
                four[i] = v4(ends[end]);
                six[i] = v6(ends_six[end]);
            }
        }
        CHECK("ranges", ipnetwork_v4_table_make(four, count, fours, count, places, count) == YES);
        CHECK("ranges", ipnetwork_v6_table_make(six, count, sixes, count, places, count) == YES);
        asked_ranges((const uint8_t *)fours, count, 4, addresses[0], 260);
        asked_ranges((const uint8_t *)sixes, count, 16, addresses_six[0], 260);
        if (count > 0) {
            ipnetwork_v4 made[46];
            ipnetwork_v6 made_six[46];
            size_t range_numbers[46] = {77}, reported = 77;
            fours[round % count].prefix = 33;
            sixes[round % count].prefix = 129;
            memset(made, 77, sizeof made);
            memset(made_six, 77, sizeof made_six);
            CHECK("past", ipnetwork_v4_ranges_make(fours, count, NULL, 0, made, 46, range_numbers, 46, &reported) == PREF && ipnetwork_v4_ranges_make(fours, count, NULL, 0, NULL, 0, NULL, 0, &reported) == PREF);
            CHECK("past", ipnetwork_v6_ranges_make(sixes, count, NULL, 0, made_six, 46, range_numbers, 46, &reported) == PREF && ipnetwork_v6_ranges_make(sixes, count, NULL, 0, NULL, 0, NULL, 0, &reported) == PREF);
            CHECK("past", reported == 77 && range_numbers[0] == 77 && made[0].prefix == 77 && made_six[0].prefix == 77);
        }
        leave_edge(four, count * sizeof *four);
        leave_edge(fours, count * sizeof *fours);
        leave_edge(six, count * sizeof *six);
        leave_edge(sixes, count * sizeof *sixes);
    }
    size_t reported = 77, place = 77;
    CHECK("NULL", ipnetwork_v4_ranges_make(NULL, 0, NULL, 0, NULL, 0, NULL, 0, &reported) == YES && reported == 0);
    reported = 77;
    CHECK("NULL", ipnetwork_v6_ranges_make(NULL, 0, NULL, 0, NULL, 0, NULL, 0, &reported) == YES && reported == 0);
    CHECK("NULL", ipnetwork_v4_ranges_find(NULL, 0, NULL, 0, NULL, 0, addresses[0], &place) == IPNETWORK_NO_MEMBER && place == 77);
    CHECK("NULL", ipnetwork_v6_ranges_find(NULL, 0, NULL, 0, NULL, 0, addresses_six[0], &place) == IPNETWORK_NO_MEMBER && place == 77);
    CHECK("NULL", ipnetwork_v4_ranges_place(NULL, 0, NULL, 0, NULL, 0, addresses[0]).place == IPNETWORK_NO_PLACE);
    CHECK("NULL", ipnetwork_v6_ranges_place(NULL, 0, NULL, 0, NULL, 0, addresses_six[0]).place == IPNETWORK_NO_PLACE);
    CHECK("NULL", ipnetwork_v4_ranges_find_column(NULL, 0, NULL, 0, NULL, 0, NULL, 0, NULL, 0, NULL, 0) == YES);
    CHECK("NULL", ipnetwork_v6_ranges_find_column(NULL, 0, NULL, 0, NULL, 0, NULL, 0, NULL, 0, NULL, 0) == YES);
}

/* The blocks of ranges within 256 addresses, and the longest possible lists. */
static void ranges(void) {
    for (unsigned first = 0; first < 256; first += 3) {
        for (unsigned last = 0; last < 256; last += 5) {
            uint8_t four[2][4] = {{192, 0, 2, (uint8_t)first}, {192, 0, 2, (uint8_t)last}};
            uint8_t six[2][16] = {{0x20, 1, 0x0d, 0xb8}, {0x20, 1, 0x0d, 0xb8}}, has[256] = {0};
            six[0][15] = (uint8_t)first;
            six[1][15] = (uint8_t)last;
            size_t reported = 77, again = 77, blocks;
            if (last < first) {
                CHECK("range", ipnetwork_v4_range_to_blocks(four[0], four[1], NULL, 0, &reported) == IPNETWORK_NO_RANGE && reported == 77);
                CHECK("range", ipnetwork_v6_range_to_blocks(six[0], six[1], NULL, 0, &again) == IPNETWORK_NO_RANGE && again == 77);
                continue;
            }
            memset(has + first, 1, last - first + 1);
            CHECK("range", ipnetwork_v4_range_to_blocks(four[0], four[1], NULL, 0, &reported) == IPNETWORK_SHORT_BUFFER);
            CHECK("range", ipnetwork_v6_range_to_blocks(six[0], six[1], NULL, 0, &again) == IPNETWORK_SHORT_BUFFER && again == reported);
            blocks = reported;
            ipnetwork_v4 *made = edge(blocks * sizeof *made);
            ipnetwork_v6 *made_six = edge(blocks * sizeof *made_six);
            made[0].prefix = made_six[0].prefix = 77;
            CHECK("range", ipnetwork_v4_range_to_blocks(four[0], four[1], made, blocks - 1, &reported) == IPNETWORK_SHORT_BUFFER);
            CHECK("range", ipnetwork_v6_range_to_blocks(six[0], six[1], made_six, blocks - 1, &again) == IPNETWORK_SHORT_BUFFER);
            CHECK("range", reported == blocks && again == blocks && made[0].prefix == 77 && made_six[0].prefix == 77);
            CHECK("range", ipnetwork_v4_range_to_blocks(four[0], four[1], made, blocks, &reported) == YES && reported == blocks);
            CHECK("range", ipnetwork_v6_range_to_blocks(six[0], six[1], made_six, blocks, &again) == YES && again == blocks);
            fewest("range", made, made_six, blocks, has);
            leave_edge(made, blocks * sizeof *made);
            leave_edge(made_six, blocks * sizeof *made_six);
        }
    }
    uint8_t first[16] = {0}, last[16];
    memset(last, 255, 16);
    size_t reported = 77;
    ipnetwork_v4 four = {{77}, 77};
    ipnetwork_v6 six = {{77}, 77};
    CHECK("all", ipnetwork_v4_range_to_blocks(first, last, &four, 1, &reported) == YES && reported == 1 && is_blank(&four, sizeof four));
    CHECK("all", ipnetwork_v6_range_to_blocks(first, last, &six, 1, &reported) == YES && reported == 1 && is_blank(&six, sizeof six));
    first[3] = 1;
    last[3] = 254;
    CHECK("longest", ipnetwork_v4_range_to_blocks(first, last, NULL, 0, &reported) == IPNETWORK_SHORT_BUFFER && reported == 62);
    first[3] = 0;
    last[3] = 255;
    first[15] = 1;
    last[15] = 254;
    CHECK("longest", ipnetwork_v6_range_to_blocks(first, last, NULL, 0, &reported) == IPNETWORK_SHORT_BUFFER && reported == 254);
}

/* Blocks within a network by their number. */
static void subnets(void) {
    ipnetwork_v4 four = v4("10.7.0.9/16"), made = {{77}, 77};
    ipnetwork_v6 six = v6("2001:db8::9/48"), made_six = {{77}, 77};
    for (unsigned longer = 0; longer <= 16; longer++) {
        for (uint32_t number = 0; number < (1u << longer); number += longer < 8 ? 1 : 251) {
            uint32_t low = 0x0a070000u + (number << (16 - longer));
            uint8_t octets[16] = {0};
            octets[14] = (uint8_t)(number >> 8);
            octets[15] = (uint8_t)number;
            CHECK("subnet", ipnetwork_v4_subnet_at(&four, (uint8_t)(16 + longer), number, &made) == YES);
            CHECK("subnet", made.address[0] == low >> 24 && made.address[1] == (low >> 16 & 255));
            CHECK("subnet", made.address[2] == (low >> 8 & 255) && made.address[3] == (low & 255) && made.prefix == 16 + longer);
            CHECK("subnet", ipnetwork_v6_subnet_at(&six, (uint8_t)(48 + longer), octets, &made_six) == YES);
            CHECK("subnet", made_six.address[6] == (low >> 8 & 255) && made_six.address[7] == (low & 255));
            CHECK("subnet", memcmp(made_six.address, six.address, 6) == 0 && is_blank(made_six.address + 8, 8) && made_six.prefix == 48 + longer);
        }
        uint8_t past[16] = {0};
        past[13] = (uint8_t)(longer == 16);
        past[14] = (uint8_t)(longer > 7 && longer < 16 ? 1u << (longer - 8) : 0);
        past[15] = (uint8_t)(longer < 8 ? 1u << longer : 0);
        made.prefix = made_six.prefix = 77;
        CHECK("past", ipnetwork_v4_subnet_at(&four, (uint8_t)(16 + longer), 1u << longer, &made) == IPNETWORK_NO_MEMBER);
        CHECK("past", ipnetwork_v6_subnet_at(&six, (uint8_t)(48 + longer), past, &made_six) == IPNETWORK_NO_MEMBER);
        CHECK("past", made.prefix == 77 && made_six.prefix == 77);
    }
    uint8_t zero[16] = {0}, most[16];
    memset(most, 255, 16);
    for (unsigned prefix = 0; prefix < 256; prefix++) {
        CHECK("prefix", ipnetwork_v4_subnet_at(&four, (uint8_t)prefix, 0, &made) == (prefix < 16 || prefix > 32 ? PREF : YES));
        CHECK("prefix", ipnetwork_v6_subnet_at(&six, (uint8_t)prefix, zero, &made_six) == (prefix < 48 || prefix > 128 ? PREF : YES));
    }
    four.prefix = six.prefix = 0;
    CHECK("last", ipnetwork_v4_subnet_at(&four, 32, 4294967295u, &made) == YES && memcmp(made.address, most, 4) == 0);
    CHECK("last", ipnetwork_v6_subnet_at(&six, 128, most, &made_six) == YES && memcmp(made_six.address, most, 16) == 0);
    four.prefix = 33;
    six.prefix = 129;
    CHECK("past", ipnetwork_v4_subnet_at(&four, 33, 0, &made) == PREF && ipnetwork_v6_subnet_at(&six, 129, zero, &made_six) == PREF);
    CHECK("past", made.prefix == 32 && made_six.prefix == 128);
}

/* Columns of texts, in blocks of exactly their size: each row has the result of the call for its text, whatever the
 * others are. */
static void columns_of_texts(void) {
    static const size_t count = sizeof rows / sizeof *rows;
    for (size_t shift = 0; shift < count; shift++) {
        char bytes[1 << 14];
        uint32_t at = 0, *offsets = malloc((count + 1) * sizeof *offsets);
        ipnetwork_v4 *fours = malloc(count * sizeof *fours);
        ipnetwork_v6 *sixes = malloc(count * sizeof *sixes);
        ipnetwork_ip *ips = malloc(count * sizeof *ips), *reported = malloc(count * sizeof *reported);
        ipnetwork_address *addresses = malloc(count * sizeof *addresses);
        uint8_t *faults = malloc(5 * count);
        for (size_t i = 0; i < count; i++) {
            const char *text = rows[(i + shift) % count].text;
            if (at + strlen(text) > sizeof bytes)
                abort();
            memcpy(bytes + at, text, strlen(text));
            offsets[i] = at;
            at += (uint32_t)strlen(text);
        }
        offsets[count] = at;
        char *texts = block(bytes, at);
        memset(fours, 0xa5, count * sizeof *fours);
        memset(sixes, 0xa5, count * sizeof *sixes);
        memset(ips, 0xa5, count * sizeof *ips);
        memset(reported, 0xa5, count * sizeof *reported);
        memset(addresses, 0xa5, count * sizeof *addresses);
        memset(faults, 77, 5 * count);
        CHECK("column", ipnetwork_v4_read_column(texts, at, offsets, count + 1, fours, count - 1, faults, count) == IPNETWORK_SHORT_BUFFER);
        CHECK("column", ipnetwork_v4_read_column(texts, at, offsets, count + 1, fours, count, faults, count - 1) == IPNETWORK_SHORT_BUFFER);
        CHECK("column", ipnetwork_v4_read_column(texts, at - 1, offsets, count + 1, fours, count, faults, count) == IPNETWORK_NO_OFFSETS);
        uint32_t kept = offsets[shift];
        offsets[shift] = offsets[shift + 1] + 1;
        CHECK("column", ipnetwork_read_column(texts, at, offsets, count + 1, ips, count, faults, count) == IPNETWORK_NO_OFFSETS);
        CHECK("column", ipnetwork_read_with_cause_column(texts, at, offsets, count + 1, reported, count, faults, count) == IPNETWORK_NO_OFFSETS);
        offsets[shift] = kept;
        CHECK("column", ipnetwork_read_with_cause_column(texts, at, offsets, count + 1, reported, count - 1, faults, count) == IPNETWORK_SHORT_BUFFER);
        CHECK("column", ipnetwork_read_with_cause_column(texts, at, offsets, count + 1, reported, count, faults, count - 1) == IPNETWORK_SHORT_BUFFER);
        for (size_t i = 0; i < 5 * count; i++)
            CHECK("written", faults[i] == 77);
        CHECK("column", ipnetwork_v4_read_column(texts, at, offsets, count + 1, fours, count, faults, count) == YES);
        CHECK("column", ipnetwork_v6_read_column(texts, at, offsets, count + 1, sixes, count, faults + count, count) == YES);
        CHECK("column", ipnetwork_read_column(texts, at, offsets, count + 1, ips, count, faults + 2 * count, count) == YES);
        CHECK("column", ipnetwork_address_read_column(texts, at, offsets, count + 1, addresses, count, faults + 3 * count, count) == YES);
        CHECK("column", ipnetwork_read_with_cause_column(texts, at, offsets, count + 1, reported, count, faults + 4 * count, count) == YES);
        CHECK("column", memcmp(reported, ips, count * sizeof *ips) == 0);
        for (size_t i = 0; i < count; i++) {
            const char *text = rows[(i + shift) % count].text;
            ipnetwork_v4 four;
            ipnetwork_v6 six;
            ipnetwork_ip ip;
            ipnetwork_address address;
            memset(&four, 0xa5, sizeof four);
            memset(&six, 0xa5, sizeof six);
            memset(&ip, 0xa5, sizeof ip);
            memset(&address, 0xa5, sizeof address);
            CHECK(text, read_v4(text, &four) == faults[i] && memcmp(&four, &fours[i], sizeof four) == 0);
            CHECK(text, read_v6(text, &six) == faults[count + i] && memcmp(&six, &sixes[i], sizeof six) == 0);
            CHECK(text, read_ip(text, &ip) == faults[2 * count + i] && memcmp(&ip, &ips[i], sizeof ip) == 0);
            CHECK(text, read_with_cause(text, &ip) == faults[4 * count + i]);
            CHECK(text, ipnetwork_address_read(text, strlen(text), &address) == faults[3 * count + i]);
            CHECK(text, memcmp(&address, &addresses[i], sizeof address) == 0);
        }
        free(offsets);
        free(fours);
        free(sixes);
        free(ips);
        free(reported);
        free(addresses);
        free(faults);
        free(texts);
    }
    uint32_t none = 0;
    CHECK("NULL", ipnetwork_v4_read_column(NULL, 0, NULL, 0, NULL, 0, NULL, 0) == YES);
    CHECK("NULL", ipnetwork_v6_read_column(NULL, 0, &none, 1, NULL, 0, NULL, 0) == YES);
    none = 1;
    CHECK("NULL", ipnetwork_read_column(NULL, 0, &none, 1, NULL, 0, NULL, 0) == IPNETWORK_NO_OFFSETS);
    CHECK("NULL", ipnetwork_read_with_cause_column(NULL, 0, &none, 1, NULL, 0, NULL, 0) == IPNETWORK_NO_OFFSETS);
    /* 32-bit offsets that a signed number, or a 32-bit sum, cannot hold. */
    static const uint32_t wide[] = {2, 0x7fffffff, 0x80000000, 0x80000001, 0xfffffffe, 0xffffffff};
    for (size_t i = 0; i < sizeof wide / sizeof *wide; i++) {
        uint32_t ends[] = {0, wide[i]}, begins[] = {wide[i], 1};
        ipnetwork_v4 four = v4("10.0.0.0/8");
        ipnetwork_v6 six = v6("::/0");
        ipnetwork_ip ip = {4, four, six};
        ipnetwork_address address = {{0}, 16};
        uint8_t fault = 77;
        for (size_t turn = 0; turn < 2; turn++) {
            const uint32_t *offsets = turn == 0 ? ends : begins;
            CHECK("wide", ipnetwork_v4_read_column("1", 1, offsets, 2, &four, 1, &fault, 1) == IPNETWORK_NO_OFFSETS);
            CHECK("wide", ipnetwork_v6_read_column("1", 1, offsets, 2, &six, 1, &fault, 1) == IPNETWORK_NO_OFFSETS);
            CHECK("wide", ipnetwork_read_column("1", 1, offsets, 2, &ip, 1, &fault, 1) == IPNETWORK_NO_OFFSETS);
            CHECK("wide", ipnetwork_read_with_cause_column("1", 1, offsets, 2, &ip, 1, &fault, 1) == IPNETWORK_NO_OFFSETS);
            CHECK("wide", ipnetwork_address_read_column("1", 1, offsets, 2, &address, 1, &fault, 1) == IPNETWORK_NO_OFFSETS);
        }
        CHECK("wide", four.prefix == 8 && six.prefix == 0 && ip.family == 4 && address.length == 16 && fault == 77);
    }
}

/* Families and addresses of either length. */
static void either(void) {
    ipnetwork_ip four, six;
    CHECK("read", read_ip("0.0.0.0/0", &four) == YES && read_ip("::/0", &six) == YES);
    for (size_t length = 0; length <= 20; length++) {
        char *octets = calloc(length, 1);
        const uint8_t *address = (const uint8_t *)somewhere(octets, length);
        uint8_t in_four = 77, in_six = 77;
        ipnetwork_fault wanted = length == 4 || length == 16 ? YES : IPNETWORK_NO_FAMILY;
        CHECK("length", ipnetwork_contains(&four, address, length, &in_four) == wanted);
        CHECK("length", ipnetwork_contains(&six, address, length, &in_six) == wanted);
        CHECK("length", in_four == (wanted == YES ? length == 4 : 77));
        CHECK("length", in_six == (wanted == YES ? length == 16 : 77));
        free(octets);
    }
    for (unsigned family = 0; family <= 255; family++) {
        if (family == 4 || family == 6)
            continue;
        uint8_t answer = 77;
        four.family = (uint8_t)family;
        four.v4.prefix = 200;
        CHECK("family", ipnetwork_contains(&four, four.v4.address, 4, &answer) == IPNETWORK_NO_FAMILY && answer == 77);
    }
}

/* IPv4-mapped addresses (RFC 4291, section 2.5.5.2) are unmapped to IPv4 addresses, and those next to them are not. */
static void unmapped(void) {
    static const struct {
        const char *text, *wanted;
    } mapped[] = {
        {"::ffff:0.0.0.0", "0.0.0.0"},
        {"::ffff:255.255.255.255", "255.255.255.255"},
        {"::ffff:c000:201", "192.0.2.1"},
        {"::fffe:255.255.255.255", NULL},
        {"::1:0:0:0", NULL},
        {"::192.0.2.1", NULL},
        {"1::ffff:192.0.2.1", NULL},
        {"64:ff9b::192.0.2.1", NULL},
    };
    for (size_t i = 0; i < sizeof mapped / sizeof *mapped; i++) {
        const char *text = mapped[i].text;
        ipnetwork_address six, four = {{9}, 4}, found = {{77}, 77};
        uint8_t octets[5] = {77, 77, 77, 77, 77};
        CHECK(text, ipnetwork_address_read(text, strlen(text), &six) == YES && six.length == 16);
        CHECK(text, ipnetwork_v6_unmapped(six.octets, octets) == (mapped[i].wanted ? YES : IPNETWORK_NO_MEMBER) && octets[4] == 77);
        CHECK(text, ipnetwork_address_unmapped(&six, &found) == YES);
        if (mapped[i].wanted == NULL) {
            CHECK(text, octets[0] == 77 && octets[3] == 77 && memcmp(&found, &six, sizeof six) == 0);
            continue;
        }
        CHECK(text, ipnetwork_address_read(mapped[i].wanted, strlen(mapped[i].wanted), &four) == YES);
        CHECK(text, memcmp(octets, four.octets, 4) == 0 && memcmp(&found, &four, sizeof four) == 0);
        six = four;
        six.octets[4] = 9; /* ignored */
        CHECK(text, ipnetwork_address_unmapped(&six, &found) == YES && memcmp(&found, &four, sizeof four) == 0);
    }
    for (unsigned length = 0; length <= 255; length++) {
        ipnetwork_address address = {{0}, (uint8_t)length}, found = {{77}, 77};
        if (length == 4 || length == 16) continue;
        CHECK("length", ipnetwork_address_unmapped(&address, &found) == IPNETWORK_NO_FAMILY && found.length == 77 && found.octets[0] == 77);
    }
}

/* The calls for networks of either family give the same results as those for one family. */
static void questions_of_either(void) {
    static const struct {
        const char *text, *low, *high, *mask;
    } ends[] = {
        {"192.0.2.77/26", "192.0.2.64", "192.0.2.127", "255.255.255.192"},
        {"0.0.0.0/0", "0.0.0.0", "255.255.255.255", "0.0.0.0"},
        {"10.1.9.32/32", "10.1.9.32", "10.1.9.32", "255.255.255.255"},
        {"2001:db8::1/32", "2001:db8::", "2001:db8:ffff:ffff:ffff:ffff:ffff:ffff", "ffff:ffff::"},
        {"::/0", "::", "ffff:ffff:ffff:ffff:ffff:ffff:ffff:ffff", "::"},
        {"::ffff:192.0.2.9/128", "::ffff:192.0.2.9", "::ffff:192.0.2.9", "ffff:ffff:ffff:ffff:ffff:ffff:ffff:ffff"},
    };
    for (size_t i = 0; i < sizeof ends / sizeof *ends; i++) {
        ipnetwork_ip network;
        ipnetwork_address reported[3], read;
        const char *wanted[3] = {ends[i].low, ends[i].high, ends[i].mask};
        CHECK(ends[i].text, read_ip(ends[i].text, &network) == YES);
        CHECK(ends[i].text, ipnetwork_network(&network, &reported[0]) == YES);
        CHECK(ends[i].text, ipnetwork_broadcast(&network, &reported[1]) == YES);
        CHECK(ends[i].text, ipnetwork_mask(&network, &reported[2]) == YES);
        for (size_t k = 0; k < 3; k++) {
            char text[IPNETWORK_ADDRESS_TEXT];
            size_t length = strlen(wanted[k]), room;
            char *buffer = malloc(length + 1);
            CHECK(wanted[k], ipnetwork_address_canonical(&reported[k], text, sizeof text, &room) == YES);
            CHECK(wanted[k], strcmp(text, wanted[k]) == 0 && room == length);
            CHECK(wanted[k], ipnetwork_address_canonical(&reported[k], buffer, length + 1, &room) == YES);
            CHECK(wanted[k], strcmp(buffer, wanted[k]) == 0);
            CHECK(wanted[k], ipnetwork_address_canonical(&reported[k], buffer, length, &room) == IPNETWORK_SHORT_BUFFER);
            CHECK(wanted[k], ipnetwork_address_read(wanted[k], length, &read) == YES);
            CHECK(wanted[k], memcmp(&read, &reported[k], sizeof read) == 0);
            CHECK(wanted[k], read.length == network.family / 6 * 12 + 4 && is_blank(read.octets + read.length, 16 - read.length));
            free(buffer);
        }
        char text[IPNETWORK_V6_TEXT];
        size_t length;
        CHECK(ends[i].text, ipnetwork_canonical(&network, text, sizeof text, &length) == YES);
        CHECK(ends[i].text, strcmp(text, ends[i].text) == 0 && length == strlen(text));
        CHECK(ends[i].text, ipnetwork_canonical(&network, text, length, &length) == IPNETWORK_SHORT_BUFFER);
    }
    static const struct {
        const char *one, *other;
        uint8_t inside, overlap;
        int32_t order;
    } pairs[] = {
        {"10.0.0.0/30", "10.0.0.0/24", 1, 1, 1}, {"10.0.0.0/24", "10.0.0.0/30", 0, 1, -1},
        {"10.0.0.0/8", "::/0", 0, 0, -1},        {"::/0", "255.255.255.255/32", 0, 0, 1},
        {"2000:aaa::/56", "2000:aaa::/48", 1, 1, 1}, {"2000:999::/56", "2000:aaa::/48", 0, 0, -1},
        {"::1/128", "::1/128", 1, 1, 0},         {"::ffff:0:0/96", "0.0.0.0/0", 0, 0, 1},
    };
    for (size_t i = 0; i < sizeof pairs / sizeof *pairs; i++) {
        ipnetwork_ip one, other;
        uint8_t inside = 77, overlap = 77;
        int32_t order = 77;
        CHECK(pairs[i].one, read_ip(pairs[i].one, &one) == YES && read_ip(pairs[i].other, &other) == YES);
        CHECK(pairs[i].one, ipnetwork_is_subnet_of(&one, &other, &inside) == YES && inside == pairs[i].inside);
        CHECK(pairs[i].one, ipnetwork_overlaps(&one, &other, &overlap) == YES && overlap == pairs[i].overlap);
        CHECK(pairs[i].one, ipnetwork_compare(&one, &other, &order) == YES && order == pairs[i].order);
    }
}

/* Families other than 4 and 6, prefix lengths greater than the width, addresses of other lengths: nothing is
 * written. */
static void refused_of_either(void) {
    ipnetwork_ip good, bad, past;
    CHECK("read", read_ip("10.0.0.0/8", &good) == YES && read_ip("::/0", &past) == YES);
    past.v6.prefix = 129;
    ipnetwork_address address = {{1}, 77}, read = {{2}, 77};
    uint8_t answer = 77;
    int32_t order = 77;
    char text[IPNETWORK_V6_TEXT] = {77};
    size_t length = 77;
    bad = past;
    for (unsigned family = 0; family <= 255; family++) {
        if (family == 4)
            continue;
        bad.family = (uint8_t)family;
        ipnetwork_fault wanted = family == 6 ? PREF : IPNETWORK_NO_FAMILY;
        CHECK("bad", ipnetwork_network(&bad, &address) == wanted);
        CHECK("bad", ipnetwork_broadcast(&bad, &address) == wanted);
        CHECK("bad", ipnetwork_mask(&bad, &address) == wanted);
        CHECK("bad", ipnetwork_canonical(&bad, text, sizeof text, &length) == wanted);
        CHECK("bad", ipnetwork_is_subnet_of(&bad, &good, &answer) == wanted);
        CHECK("bad", ipnetwork_is_subnet_of(&good, &bad, &answer) == wanted);
        CHECK("bad", ipnetwork_is_subnet_of(&past, &bad, &answer) == PREF);
        CHECK("bad", ipnetwork_overlaps(&bad, &good, &answer) == wanted);
        CHECK("bad", ipnetwork_overlaps(&good, &bad, &answer) == wanted);
        CHECK("bad", ipnetwork_overlaps(&past, &bad, &answer) == PREF);
        CHECK("bad", ipnetwork_compare(&bad, &good, &order) == wanted);
        CHECK("bad", ipnetwork_compare(&good, &bad, &order) == wanted);
        CHECK("bad", ipnetwork_compare(&past, &bad, &order) == PREF);
    }
    for (unsigned count = 0; count <= 255; count++) {
        address.length = (uint8_t)count;
        size_t reported = 77;
        char printed[IPNETWORK_ADDRESS_TEXT] = {77};
        ipnetwork_fault wanted = count == 4 || count == 16 ? YES : IPNETWORK_NO_FAMILY;
        CHECK("length", ipnetwork_address_canonical(&address, printed, sizeof printed, &reported) == wanted);
        CHECK("length", wanted == YES || (printed[0] == 77 && reported == 77));
    }
    static const char *const texts[] = {"", "10.0.0.0/8", "10.0.0", "10.0.0.256", "010.0.0.1", "::1%eth0", "[::1]", " ::1",
                                        "1.2.3.4.", ":::", "1:2:3:4:5:6:7:8:9"};
    for (size_t i = 0; i < sizeof texts / sizeof *texts; i++)
        CHECK(texts[i], ipnetwork_address_read(texts[i], strlen(texts[i]), &read) == ADDR);
    CHECK("written", read.octets[0] == 2 && read.length == 77 && address.octets[0] == 1);
    CHECK("written", answer == 77 && order == 77 && text[0] == 77 && length == 77);
}

/* Structs, addresses and texts at odd addresses in memory, since all of them have an alignment of one byte. */
static void odd_places(void) {
    for (size_t offset = 0; offset < 8; offset++) {
        uint8_t *bytes = malloc(offset + sizeof(ipnetwork_ip) + 16 + 1);
        ipnetwork_ip *network = (ipnetwork_ip *)(bytes + offset);
        uint8_t *octets = bytes + offset + sizeof *network, *answer = octets + 16;
        size_t length;
        char buffer[IPNETWORK_V6_TEXT + 8];
        CHECK("odd place", read_ip("2001:db8::1/32", network) == YES);
        CHECK("odd place", ipnetwork_v6_broadcast(&network->v6, octets) == YES);
        CHECK("odd place", ipnetwork_contains(network, octets, 16, answer) == YES && *answer == 1);
        CHECK("odd place", ipnetwork_v6_contains(&network->v6, network->v6.address, answer) == YES && *answer == 1);
        CHECK("odd place", ipnetwork_v6_canonical(&network->v6, buffer + offset, 15, &length) == YES);
        CHECK("odd place", memcmp(buffer + offset, "2001:db8::1/32", 15) == 0);
        free(bytes);
    }
}

/* Random networks of both families printed as columns: each text is that of the call for one network, and the offsets
 * are those of the texts. Every buffer is at the end of the memory. */
static void printed_columns(void) {
    for (size_t rows = 0; rows < 40; rows++) {
        ipnetwork_v4 *four = edge(rows * sizeof *four);
        ipnetwork_v6 *six = edge(rows * sizeof *six);
        char wanted[2][40 * IPNETWORK_V6_TEXT];
        uint32_t starts[2][41] = {{0}};
        for (size_t row = 0; row < rows; row++) {
            size_t lengths[2] = {0, 0};
            for (size_t place = 0; place < 16; place++) six[row].address[place] = (uint8_t)(number() % 3 == 0 ? number() : 0);
            for (size_t place = 0; place < 4; place++) four[row].address[place] = (uint8_t)number();
            four[row].prefix = (uint8_t)(number() % 33);
            six[row].prefix = (uint8_t)(number() % 129);
            CHECK("printed", ipnetwork_v4_canonical(&four[row], wanted[0] + starts[0][row], IPNETWORK_V4_TEXT, &lengths[0]) == YES);
            CHECK("printed", ipnetwork_v6_canonical(&six[row], wanted[1] + starts[1][row], IPNETWORK_V6_TEXT, &lengths[1]) == YES);
            starts[0][row + 1] = starts[0][row] + (uint32_t)lengths[0];
            starts[1][row + 1] = starts[1][row] + (uint32_t)lengths[1];
        }
        for (size_t which = 0; which < 2; which++) {
            size_t whole = starts[which][rows], reported = 77;
            char *texts = edge(whole);
            uint32_t *offsets = edge((rows + 1) * sizeof *offsets);
#define PRINTED(room, places)                                                                                              \
    (which == 0 ? ipnetwork_v4_print_column(four, rows, texts, room, offsets, places, &reported)                               \
                : ipnetwork_v6_print_column(six, rows, texts, room, offsets, places, &reported))
            offsets[0] = 77;
            if (whole != 0) {
                texts[0] = 'x';
                CHECK("one short", PRINTED(whole - 1, rows + 1) == IPNETWORK_SHORT_BUFFER && reported == whole && texts[0] == 'x');
                reported = 77;
            }
            CHECK("one short", PRINTED(whole, rows) == IPNETWORK_SHORT_BUFFER && reported == whole && offsets[0] == 77);
            reported = 77;
            CHECK("printed", PRINTED(whole, rows + 1) == YES && reported == whole);
            CHECK("printed", memcmp(texts, wanted[which], whole) == 0);
            CHECK("printed", memcmp(offsets, starts[which], (rows + 1) * sizeof *offsets) == 0);
            if (rows != 0) {
                uint8_t *prefix = which == 0 ? &four[rows / 2].prefix : &six[rows / 2].prefix;
                *prefix = which == 0 ? 33 : 129;
                reported = 77;
                texts[0] = 'x';
                offsets[0] = 77;
                CHECK("past", PRINTED(whole, rows + 1) == PREF && reported == 77 && texts[0] == 'x' && offsets[0] == 77);
            }
            leave_edge(texts, whole);
            leave_edge(offsets, (rows + 1) * sizeof *offsets);
        }
        leave_edge(four, rows * sizeof *four);
        leave_edge(six, rows * sizeof *six);
    }
    uint32_t offset = 77;
    size_t reported = 77;
    CHECK("NULL", ipnetwork_v4_print_column(NULL, 0, NULL, 0, &offset, 1, &reported) == YES && reported == 0 && offset == 0);
    CHECK("NULL", ipnetwork_v6_print_column(NULL, 0, NULL, 0, NULL, 0, &reported) == IPNETWORK_SHORT_BUFFER && reported == 0);
}

/* Columns of either family, of networks and of addresses: each text is that of the call for one, and the fault is that
 * of the first bad row. */
static void printed_columns_of_either(void) {
    for (size_t rows = 0; rows < 40; rows++) {
        ipnetwork_ip *ips = edge(rows * sizeof *ips);
        ipnetwork_address *addresses = edge(rows * sizeof *addresses);
        char wanted[2][40 * IPNETWORK_V6_TEXT];
        uint32_t starts[2][41] = {{0}};
        for (size_t row = 0; row < rows; row++) {
            size_t lengths[2] = {0, 0};
            memset(&ips[row], 0, sizeof ips[row]);
            for (size_t place = 0; place < 16; place++) ips[row].v6.address[place] = (uint8_t)(number() % 3 == 0 ? number() : 0);
            memcpy(ips[row].v4.address, ips[row].v6.address + 4, 4);
            ips[row].family = number() % 2 == 0 ? 4 : 6;
            ips[row].v4.prefix = (uint8_t)(number() % 33);
            ips[row].v6.prefix = (uint8_t)(number() % 129);
            memcpy(addresses[row].octets, ips[row].v6.address, 16);
            addresses[row].length = number() % 2 == 0 ? 4 : 16;
            CHECK("printed", ipnetwork_canonical(&ips[row], wanted[0] + starts[0][row], IPNETWORK_V6_TEXT, &lengths[0]) == YES);
            CHECK("printed", ipnetwork_address_canonical(&addresses[row], wanted[1] + starts[1][row], IPNETWORK_V6_TEXT, &lengths[1]) == YES);
            starts[0][row + 1] = starts[0][row] + (uint32_t)lengths[0];
            starts[1][row + 1] = starts[1][row] + (uint32_t)lengths[1];
        }
        for (size_t which = 0; which < 2; which++) {
            size_t whole = starts[which][rows], reported = 77;
            char *texts = edge(whole);
            uint32_t *offsets = edge((rows + 1) * sizeof *offsets);
#define PRINTED_OF_EITHER(room, places)                                                                                    \
    (which == 0 ? ipnetwork_print_column(ips, rows, texts, room, offsets, places, &reported)                                   \
                : ipnetwork_address_print_column(addresses, rows, texts, room, offsets, places, &reported))
            offsets[0] = 77;
            CHECK("one short", PRINTED_OF_EITHER(whole, rows) == IPNETWORK_SHORT_BUFFER && reported == whole && offsets[0] == 77);
            reported = 77;
            CHECK("printed", PRINTED_OF_EITHER(whole, rows + 1) == YES && reported == whole);
            CHECK("printed", memcmp(texts, wanted[which], whole) == 0);
            CHECK("printed", memcmp(offsets, starts[which], (rows + 1) * sizeof *offsets) == 0);
            if (rows > 1) {
                ipnetwork_ip *first = &ips[rows / 3];
                reported = 77;
                texts[0] = 'x';
                offsets[0] = 77;
                CHECK("one short", PRINTED_OF_EITHER(whole - 1, rows + 1) == IPNETWORK_SHORT_BUFFER && reported == whole);
                reported = 77;
                first->v4.prefix = 33;
                first->v6.prefix = 129;
                ips[rows - 1].family = 5;
                if (which == 1) addresses[rows / 2].length = 15;
                CHECK("past", PRINTED_OF_EITHER(whole, rows + 1) == (which == 0 ? PREF : IPNETWORK_NO_FAMILY));
                first->family = 0;
                ips[rows - 1].family = 4;
                ips[rows - 1].v4.prefix = 33;
                CHECK("past", PRINTED_OF_EITHER(whole, rows + 1) == IPNETWORK_NO_FAMILY);
                CHECK("past", reported == 77 && texts[0] == 'x' && offsets[0] == 77);
            }
            leave_edge(texts, whole);
            leave_edge(offsets, (rows + 1) * sizeof *offsets);
        }
        leave_edge(ips, rows * sizeof *ips);
        leave_edge(addresses, rows * sizeof *addresses);
    }
    uint32_t offset = 77;
    size_t reported = 77;
    CHECK("NULL", ipnetwork_print_column(NULL, 0, NULL, 0, &offset, 1, &reported) == YES && reported == 0 && offset == 0);
    CHECK("NULL", ipnetwork_address_print_column(NULL, 0, NULL, 0, NULL, 0, &reported) == IPNETWORK_SHORT_BUFFER && reported == 0);
}

/* The offset of each field, and the bytes of structs that are read. */
static void layout(void) {
    static const uint8_t octets[] = {0x20, 1, 0x0d, 0xb8, 0, 0, 0, 0, 0, 0, 0, 0, 0, 0, 0, 1, 64}, none[17] = {0};
    ipnetwork_v4 four = v4("10.1.9.32/16");
    ipnetwork_v6 six = v6("2001:db8::1/64");
    ipnetwork_ip ip;
    ipnetwork_address address;
    CHECK("layout", sizeof four == 5 && offsetof(ipnetwork_v4, address) == 0 && offsetof(ipnetwork_v4, prefix) == 4);
    CHECK("layout", sizeof six == 17 && offsetof(ipnetwork_v6, address) == 0 && offsetof(ipnetwork_v6, prefix) == 16);
    CHECK("layout", sizeof ip == 23 && offsetof(ipnetwork_ip, family) == 0);
    CHECK("layout", offsetof(ipnetwork_ip, v4) == 1 && offsetof(ipnetwork_ip, v6) == 6);
    CHECK("layout", sizeof address == 17 && offsetof(ipnetwork_address, octets) == 0 && offsetof(ipnetwork_address, length) == 16);
    CHECK("bytes", memcmp(&four, "\x0a\x01\x09\x20\x10", 5) == 0 && memcmp(&six, octets, 17) == 0);
    CHECK("bytes", read_ip("10.1.9.32/16", &ip) == YES);
    CHECK("bytes", memcmp(&ip, "\x04\x0a\x01\x09\x20\x10", 6) == 0 && memcmp((char *)&ip + 6, none, 17) == 0);
    CHECK("bytes", read_ip("2001:db8::1/64", &ip) == YES);
    CHECK("bytes", memcmp(&ip, "\x06\0\0\0\0\0", 6) == 0 && memcmp((char *)&ip + 6, octets, 17) == 0);
    CHECK("bytes", ipnetwork_address_read("10.1.9.32", 9, &address) == YES);
    CHECK("bytes", memcmp(&address, "\x0a\x01\x09\x20\0\0\0\0\0\0\0\0\0\0\0\0\x04", 17) == 0);
}

int main(int count, char **words) {
    CHECK("version", ipnetwork_abi_version() == IPNETWORK_ABI_VERSION);
    CHECK("version", ipnetwork_abi_minor_version() == IPNETWORK_ABI_MINOR_VERSION);
    layout();
    texts();
    nothing();
    fault_texts();
    build(count > 1 ? words[1] : NULL);
    buffers();
    questions_v4();
    questions_v6();
    past_the_width();
    columns();
    aggregates();
    sets();
    operations();
    tables();
    tables_made();
    indexes();
    table_ranges();
    ranges();
    subnets();
    columns_of_texts();
    printed_columns();
    printed_columns_of_either();
    either();
    unmapped();
    questions_of_either();
    refused_of_either();
    odd_places();
    if (failures == 0)
        printf("C: all rows as expected\n");
    return failures != 0;
}
