/* Tells for each address on standard input, one a line, whether it is in a list of networks, and the longest network
 * that has it. The list is a file with one network a line; empty lines and lines that begin with '#' are ignored.
 *
 *   allow LIST < ADDRESSES
 *
 * An IPv4-mapped address, as a socket for both families reports an IPv4 peer, is also looked up as the IPv4 address in
 * it, because in its own form it is in no IPv4 network. A list of denied networks must be checked in the same way.
 *
 * The program prints each address and whether it is allowed. The status is 0; or 2, with the reason on standard error,
 * if the list or standard input cannot be read to its end, an answer cannot be written, memory runs out, or lines of
 * the list are not networks: then it says of each of them why not. Nothing is printed to standard output before the
 * whole list has been read. */
#define _POSIX_C_SOURCE 200809L
#include "ipnetwork.h"

#include <stdio.h>
#include <stdlib.h>
#include <string.h>
#include <sys/types.h>

/* A line without its end, in memory that getline gives. */
struct line {
    char *text;
    size_t room, length;
};

/* The networks of one family as they are read; their table, that is, the blocks with the place of the network of each;
 * and the ranges of the table with the place of the longest network of each, and their index. */
struct fours {
    ipnetwork_v4 *networks, *blocks, *ranges;
    size_t count, room, *places, *range_places, range_count, index_length;
    uint32_t *index;
};
struct sixes {
    ipnetwork_v6 *networks, *blocks, *ranges;
    size_t count, room, *places, *range_places, range_count, index_length;
    uint32_t *index;
};
struct list {
    struct fours fours;
    struct sixes sixes;
};

/* Whether there is a next line. A line that a failed read cut short does not count: its front may name another
 * network. */
static int next_line(FILE *file, struct line *line) {
    ssize_t got = getline(&line->text, &line->room, file);
    if (got < 0 || ferror(file))
        return 0;
    line->length = (size_t)got;
    while (line->length > 0 && (line->text[line->length - 1] == '\n' || line->text[line->length - 1] == '\r'))
        line->length -= 1;
    return 1;
}

/* Whether the file was read to its end. If neither ferror nor feof is true, getline ran out of memory. */
static int was_read(FILE *file, const char *name) {
    if (feof(file) && !ferror(file))
        return 1;
    perror(name);
    return 0;
}

/* An array with room for one struct more; NULL if memory runs out, and then the array is unchanged. */
static void *grown(void *array, size_t count, size_t *room, size_t size) {
    if (count < *room)
        return array;
    size_t more = *room == 0 ? 16 : 2 * *room;
    void *place = realloc(array, more * size);
    if (place != NULL)
        *room = more;
    return place;
}

/* Adds a network, and returns whether there was memory for it. */
static int keep(const ipnetwork_ip *network, struct list *list) {
    struct fours *fours = &list->fours;
    struct sixes *sixes = &list->sixes;
    void *place = network->family == 4 ? grown(fours->networks, fours->count, &fours->room, sizeof network->v4)
                                       : grown(sixes->networks, sixes->count, &sixes->room, sizeof network->v6);
    if (place == NULL) {
        perror("allow");
        return 0;
    }
    if (network->family == 4) {
        fours->networks = place;
        fours->networks[fours->count++] = network->v4;
    } else {
        sixes->networks = place;
        sixes->networks[sixes->count++] = network->v6;
    }
    return 1;
}

/* Reports which line of a list is not a network, and why. */
static void tell_refusal(const char *name, size_t number, const struct line *line, ipnetwork_fault fault) {
    char words[IPNETWORK_FAULT_TEXT];
    size_t length;
    if (ipnetwork_fault_text(fault, words, sizeof words, &length) == IPNETWORK_OK)
        fprintf(stderr, "%s:%zu: %s: %.*s\n", name, number, words, (int)line->length, line->text);
}

/* Reads a list, and returns whether it was read to its end and each line of it is a network. */
static int read_list(FILE *file, const char *name, struct list *list, struct line *line) {
    int refused = 0;
    for (size_t number = 1; next_line(file, line); number++) {
        if (line->length == 0 || line->text[0] == '#')
            continue;
        ipnetwork_ip network;
        ipnetwork_fault fault = ipnetwork_read_with_cause(line->text, line->length, &network);
        if (fault != IPNETWORK_OK) {
            tell_refusal(name, number, line, fault);
            refused = 1;
        } else if (!keep(&network, list)) {
            return 0;
        }
    }
    return was_read(file, name) && !refused;
}

/* The same for the file with this name. */
static int open_list(const char *name, struct list *list, struct line *line) {
    FILE *file = fopen(name, "r");
    if (file == NULL) {
        perror(name);
        return 0;
    }
    int done = read_list(file, name, list, line);
    fclose(file);
    return done;
}

/* Memory for this many elements, not NULL even if there are none. */
static void *memory(size_t count, size_t size) { return malloc(count == 0 ? 1 : count * size); }

/* Makes the ranges by which a list is searched, and returns whether that succeeded. A list that is searched only once
 * does not need them. */
static int make_fours(struct fours *list) {
    size_t count = list->count, most = 2 * count;
    if (ipnetwork_index_size(most, &list->index_length) != IPNETWORK_OK)
        return 0;
    list->blocks = memory(count, sizeof *list->blocks);
    list->places = memory(count, sizeof *list->places);
    list->ranges = memory(most, sizeof *list->ranges);
    list->range_places = memory(most, sizeof *list->range_places);
    list->index = memory(list->index_length, sizeof *list->index);
    return list->blocks && list->places && list->ranges && list->range_places && list->index &&
           ipnetwork_v4_table_make(list->networks, count, list->blocks, count, list->places, count) == IPNETWORK_OK &&
           ipnetwork_v4_table_index_make(list->blocks, count, list->index, list->index_length) == IPNETWORK_OK &&
           ipnetwork_v4_ranges_make_numbered(list->blocks, count, list->places, count, list->index, list->index_length,
                                             list->ranges, most, list->range_places, most,
                                             &list->range_count) == IPNETWORK_OK &&
           ipnetwork_v4_table_index_make(list->ranges, list->range_count, list->index, list->index_length) == IPNETWORK_OK;
}

static int make_sixes(struct sixes *list) {
    size_t count = list->count, most = 2 * count;
    if (ipnetwork_index_size(most, &list->index_length) != IPNETWORK_OK)
        return 0;
    list->blocks = memory(count, sizeof *list->blocks);
    list->places = memory(count, sizeof *list->places);
    list->ranges = memory(most, sizeof *list->ranges);
    list->range_places = memory(most, sizeof *list->range_places);
    list->index = memory(list->index_length, sizeof *list->index);
    return list->blocks && list->places && list->ranges && list->range_places && list->index &&
           ipnetwork_v6_table_make(list->networks, count, list->blocks, count, list->places, count) == IPNETWORK_OK &&
           ipnetwork_v6_table_index_make(list->blocks, count, list->index, list->index_length) == IPNETWORK_OK &&
           ipnetwork_v6_ranges_make_numbered(list->blocks, count, list->places, count, list->index, list->index_length,
                                             list->ranges, most, list->range_places, most,
                                             &list->range_count) == IPNETWORK_OK &&
           ipnetwork_v6_table_index_make(list->ranges, list->range_count, list->index, list->index_length) == IPNETWORK_OK;
}

static int make_ranges(struct list *list) {
    if (make_fours(&list->fours) && make_sixes(&list->sixes))
        return 1;
    fprintf(stderr, "allow: no memory for the ranges of the list\n");
    return 0;
}

/* Whether a network of the list has an address; if so, writes the text of the longest one. */
static int has(const struct list *list, const ipnetwork_address *address, char text[IPNETWORK_V6_TEXT]) {
    const struct fours *fours = &list->fours;
    const struct sixes *sixes = &list->sixes;
    size_t length;
    ipnetwork_place found =
        address->length == 4
            ? ipnetwork_v4_ranges_place(fours->ranges, fours->range_count, fours->range_places, fours->range_count,
                                        fours->index, fours->index_length, address->octets)
            : ipnetwork_v6_ranges_place(sixes->ranges, sixes->range_count, sixes->range_places, sixes->range_count,
                                        sixes->index, sixes->index_length, address->octets);
    if (found.place == IPNETWORK_NO_PLACE)
        return 0;
    if (address->length == 4)
        return ipnetwork_v4_canonical(&fours->networks[found.place], text, IPNETWORK_V6_TEXT, &length) == IPNETWORK_OK;
    return ipnetwork_v6_canonical(&sixes->networks[found.place], text, IPNETWORK_V6_TEXT, &length) == IPNETWORK_OK;
}

/* The same for an address as it is, and as the IPv4 address in it. */
static int is_allowed(const struct list *list, const ipnetwork_address *address, char text[IPNETWORK_V6_TEXT]) {
    ipnetwork_address unmapped;
    return has(list, address, text) ||
           (ipnetwork_address_unmapped(address, &unmapped) == IPNETWORK_OK && has(list, &unmapped, text));
}

static void answer(const struct line *line, const struct list *list) {
    ipnetwork_address address;
    char text[IPNETWORK_V6_TEXT];
    fwrite(line->text, 1, line->length, stdout);
    if (ipnetwork_address_read(line->text, line->length, &address) != IPNETWORK_OK)
        puts(" no address");
    else if (is_allowed(list, &address, text))
        printf(" allowed by %s\n", text);
    else
        puts(" not allowed");
}

/* Answers each line of standard input, and returns whether it was read to its end and each answer was written. */
static int answer_all(const struct list *list, struct line *line) {
    while (next_line(stdin, line))
        answer(line, list);
    if (!was_read(stdin, "standard input"))
        return 0;
    if (fflush(stdout) == 0 && !ferror(stdout))
        return 1;
    perror("standard output");
    return 0;
}

static void leave(struct list *list, struct line *line) {
    struct fours *fours = &list->fours;
    struct sixes *sixes = &list->sixes;
    void *all[] = {fours->networks, fours->blocks, fours->ranges, fours->places, fours->range_places, fours->index,
                   sixes->networks, sixes->blocks, sixes->ranges, sixes->places, sixes->range_places, sixes->index,
                   line->text};
    for (size_t at = 0; at < sizeof all / sizeof *all; at++)
        free(all[at]);
}

int main(int count, char **words) {
    if (count != 2) {
        fprintf(stderr, "usage: allow LIST < ADDRESSES\n");
        return 2;
    }
    struct list list = {0};
    struct line line = {NULL, 0, 0};
    int done = open_list(words[1], &list, &line) && make_ranges(&list) && answer_all(&list, &line);
    leave(&list, &line);
    return done ? 0 : 2;
}
