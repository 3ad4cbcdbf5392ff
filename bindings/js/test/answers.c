/* Prints what the library for C says of each line of standard input, a text in hexadecimal: for
 * against_c.mjs, which prints the same by the package and compares. After every 64 texts it prints
 * what lists of their networks give. */
#include "ipnetwork.h"

#include <stdio.h>
#include <stdlib.h>
#include <string.h>

#define WINDOW 64
#define BLOCKS 20000

static void must(ipnetwork_fault fault) {
    if (fault != IPNETWORK_OK) {
        fprintf(stderr, "answers.c: fault %u\n", (unsigned)fault);
        exit(1);
    }
}

static void print_address(const uint8_t *octets, uint8_t length) {
    ipnetwork_address address = {{0}, length};
    char text[IPNETWORK_ADDRESS_TEXT];
    size_t written;
    memcpy(address.octets, octets, length);
    must(ipnetwork_address_canonical(&address, text, sizeof text, &written));
    printf(" %s", text);
}

/* The body for one family: V is v4 or v6, OCTETS the bytes of an address, TEXT the room of a
 * text. */
#define FAMILY(V, OCTETS, TEXT)                                                                   \
    static ipnetwork_##V window_##V[WINDOW];                                                      \
    static size_t count_##V;                                                                      \
                                                                                                  \
    static void print_##V(const ipnetwork_##V *network) {                                         \
        char text[TEXT];                                                                          \
        size_t written;                                                                              \
        must(ipnetwork_##V##_canonical(network, text, sizeof text, &written));                       \
        printf(" %s", text);                                                                      \
    }                                                                                             \
                                                                                                  \
    static void list_##V(const char *name, const ipnetwork_##V *blocks, size_t count) {           \
        printf("%s", name);                                                                       \
        for (size_t i = 0; i < count; i++)                                                        \
            print_##V(blocks + i);                                                                \
        printf("\n");                                                                             \
    }                                                                                             \
                                                                                                  \
    static void one_##V(const ipnetwork_##V *network) {                                           \
        uint8_t octets[OCTETS];                                                                   \
        print_##V(network);                                                                       \
        must(ipnetwork_##V##_network(network, octets));                                           \
        print_address(octets, OCTETS);                                                            \
        must(ipnetwork_##V##_broadcast(network, octets));                                         \
        print_address(octets, OCTETS);                                                            \
        must(ipnetwork_##V##_mask(network, octets));                                              \
        print_address(octets, OCTETS);                                                            \
        size_##V(network);                                                                        \
        number_##V(network);                                                                      \
        if (count_##V > 0) {                                                                      \
            const ipnetwork_##V *before = window_##V + count_##V - 1;                             \
            uint8_t has, inside, around, both;                                                    \
            int32_t order;                                                                        \
            must(ipnetwork_##V##_contains(before, network->address, &has));                       \
            must(ipnetwork_##V##_is_subnet_of(network, before, &inside));                         \
            must(ipnetwork_##V##_is_subnet_of(before, network, &around));                         \
            must(ipnetwork_##V##_overlaps(before, network, &both));                               \
            must(ipnetwork_##V##_compare(before, network, &order));                               \
            printf(" %u %u %u %u %d", has, inside, around, both, (int)order);                     \
        }                                                                                         \
        window_##V[count_##V++] = *network;                                                       \
    }                                                                                             \
                                                                                                  \
    static void lists_##V(void) {                                                                 \
        static ipnetwork_##V sets[2][WINDOW], blocks[BLOCKS];                                     \
        size_t counts[2] = {0, 0}, places[WINDOW], written;                                          \
        for (size_t i = 0; i < count_##V; i++)                                                    \
            sets[i % 2][counts[i % 2]++] = window_##V[i];                                         \
        for (size_t i = 0; i < 2; i++) {                                                          \
            must(ipnetwork_##V##_aggregate(sets[i], counts[i], counts + i));                      \
            list_##V("set", sets[i], counts[i]);                                                  \
        }                                                                                         \
        must(ipnetwork_##V##_union(sets[0], counts[0], sets[1], counts[1], blocks, BLOCKS,        \
            &written));                                                                              \
        list_##V("union", blocks, written);                                                          \
        must(ipnetwork_##V##_intersection(sets[0], counts[0], sets[1], counts[1], blocks,         \
            BLOCKS, &written));                                                                      \
        list_##V("intersection", blocks, written);                                                   \
        must(ipnetwork_##V##_difference(sets[0], counts[0], sets[1], counts[1], blocks, BLOCKS,   \
            &written));                                                                              \
        list_##V("difference", blocks, written);                                                     \
        must(ipnetwork_##V##_table_make(window_##V, count_##V, blocks, BLOCKS, places, WINDOW));  \
        printf("asked");                                                                          \
        for (size_t i = 0; i < count_##V; i++) {                                                  \
            uint8_t octets[OCTETS], answer;                                                       \
            must(ipnetwork_##V##_broadcast(window_##V + i, octets));                              \
            must(ipnetwork_##V##_index_contains(sets[0], counts[0], NULL, 0, octets, &answer));   \
            must(ipnetwork_##V##_index_find(blocks, count_##V, NULL, 0, octets, &written));          \
            printf(" %u %zu", answer, places[written]);                                              \
        }                                                                                         \
        printf("\n");                                                                             \
        if (count_##V > 1) {                                                                      \
            uint8_t first[OCTETS], last[OCTETS];                                                  \
            must(ipnetwork_##V##_network(window_##V, first));                                     \
            must(ipnetwork_##V##_broadcast(window_##V + 1, last));                                \
            if (ipnetwork_##V##_range_to_blocks(first, last, blocks, BLOCKS,                      \
                &written) == IPNETWORK_OK)                                                           \
                list_##V("range", blocks, written);                                                  \
        }                                                                                         \
        count_##V = 0;                                                                            \
    }

static void size_v4(const ipnetwork_v4 *network) {
    uint64_t size;
    must(ipnetwork_v4_size(network, &size));
    printf(" %llx", (unsigned long long)size);
}

static void size_v6(const ipnetwork_v6 *network) {
    uint8_t size[17];
    must(ipnetwork_v6_size(network, size));
    size_t at = 0;
    while (size[at] == 0)
        at++;
    printf(" %x", size[at++]);
    for (; at < 17; at++)
        printf("%02x", size[at]);
}

/* The member number 5, and the block number 3 of a prefix length that is 2 longer, if there are
 * any. */
static void number_v4(const ipnetwork_v4 *network) {
    ipnetwork_v4 subnet;
    uint8_t octets[4];
    if (ipnetwork_v4_nth(network, 5, octets) == IPNETWORK_OK)
        print_address(octets, 4);
    if (network->prefix <= 30) {
        must(ipnetwork_v4_subnet_at(network, (uint8_t)(network->prefix + 2), 3, &subnet));
        char text[IPNETWORK_V4_TEXT];
        size_t written;
        must(ipnetwork_v4_canonical(&subnet, text, sizeof text, &written));
        printf(" %s", text);
    }
}

static void number_v6(const ipnetwork_v6 *network) {
    static const uint8_t five[16] = {[15] = 5}, three[16] = {[15] = 3};
    ipnetwork_v6 subnet;
    uint8_t octets[16];
    if (ipnetwork_v6_nth(network, five, octets) == IPNETWORK_OK)
        print_address(octets, 16);
    if (network->prefix <= 126) {
        must(ipnetwork_v6_subnet_at(network, (uint8_t)(network->prefix + 2), three, &subnet));
        char text[IPNETWORK_V6_TEXT];
        size_t written;
        must(ipnetwork_v6_canonical(&subnet, text, sizeof text, &written));
        printf(" %s", text);
    }
}

FAMILY(v4, 4, IPNETWORK_V4_TEXT)
FAMILY(v6, 16, IPNETWORK_V6_TEXT)

static void answer(const char *text, size_t length) {
    ipnetwork_v4 four;
    ipnetwork_v6 six;
    ipnetwork_ip either;
    ipnetwork_address address;
    ipnetwork_fault fault = ipnetwork_v4_read(text, length, &four);
    printf("%u", (unsigned)fault);
    if (fault == IPNETWORK_OK)
        one_v4(&four);
    fault = ipnetwork_v6_read(text, length, &six);
    printf(" %u", (unsigned)fault);
    if (fault == IPNETWORK_OK)
        one_v6(&six);
    fault = ipnetwork_read_with_cause(text, length, &either);
    printf(" %u", (unsigned)fault);
    if (fault == IPNETWORK_OK)
        printf(" %u", either.family);
    fault = ipnetwork_address_read(text, length, &address);
    printf(" %u", (unsigned)fault);
    if (fault == IPNETWORK_OK)
        print_address(address.octets, address.length);
    printf("\n");
}

static int digit(int c) { return c <= '9' ? c - '0' : c - 'a' + 10; }

int main(void) {
    static char line[4096];
    size_t rows = 0;
    while (fgets(line, sizeof line, stdin) != NULL) {
        size_t length = strcspn(line, "\n") / 2;
        char *text = malloc(length + 1);
        if (text == NULL)
            return 1;
        for (size_t i = 0; i < length; i++)
            text[i] = (char)(digit(line[2 * i]) << 4 | digit(line[2 * i + 1]));
        answer(text, length);
        free(text);
        if (++rows % WINDOW == 0) {
            lists_v4();
            lists_v6();
        }
    }
    return ferror(stdin) || fflush(stdout) != 0;
}
