/* Lists of either family, and tables as ranges, for the bindings for Python and Go, which are compiled with this file.
 * It is not part of the library and computes nothing itself: it chooses the call for a family, and passes its result
 * on.
 *
 * A table is searched by its ranges, as ipnetwork_v4_ranges_make_numbered and ipnetwork_v6_ranges_make_numbered make
 * them: for each range there is the number of its longest network in the caller's list. */
#ifndef IPNETWORK_RANGES_H
#define IPNETWORK_RANGES_H

#include "ipnetwork.h"

_Static_assert(sizeof(size_t) == sizeof(int64_t), "the numbers of ranges are searched as places");

/* Structs of one family, with addresses of 4 or 16 octets, and their index, which may have length 0. */
typedef struct {
    size_t width;
    const uint8_t *structs;
    size_t count;
    const uint32_t *index;
    size_t index_length;
} searched_list;

/* What ipnetwork_v4_index_find and ipnetwork_v6_index_find find. */
static inline ipnetwork_fault list_find(const searched_list *list, const uint8_t *address, size_t *place) {
    if (list->width == 4)
        return ipnetwork_v4_index_find((const ipnetwork_v4 *)list->structs, list->count, list->index, list->index_length,
                                       address, place);
    return ipnetwork_v6_index_find((const ipnetwork_v6 *)list->structs, list->count, list->index, list->index_length,
                                   address, place);
}

/* Whether an address is in a set, as ipnetwork_v4_index_contains and ipnetwork_v6_index_contains tell. */
static inline ipnetwork_fault list_contains(const searched_list *list, const uint8_t *address, uint8_t *answer) {
    if (list->width == 4)
        return ipnetwork_v4_index_contains((const ipnetwork_v4 *)list->structs, list->count, list->index,
                                           list->index_length, address, answer);
    return ipnetwork_v6_index_contains((const ipnetwork_v6 *)list->structs, list->count, list->index, list->index_length,
                                       address, answer);
}

/* The length of the index of a list of count structs: 0 for a short list, which is searched as fast without one. */
static inline size_t list_index_size(size_t count) {
    size_t length = 0;
    return count < 8 || ipnetwork_index_size(count, &length) != IPNETWORK_OK ? 0 : length;
}

/* Writes the index of a list. */
static inline ipnetwork_fault list_index(size_t width, const uint8_t *structs, size_t count, uint32_t *index,
                                         size_t length) {
    if (width == 4) return ipnetwork_v4_table_index_make((const ipnetwork_v4 *)structs, count, index, length);
    return ipnetwork_v6_table_index_make((const ipnetwork_v6 *)structs, count, index, length);
}

/* Divides a table into ranges. There is room for two ranges for each block. Writes to range_numbers the number of the
 * longest block of each range, or -1, which is IPNETWORK_NO_PLACE, if there is none. */
static inline ipnetwork_fault table_ranges(const searched_list *table, const int64_t *numbers, uint8_t *ranges,
                                           int64_t *range_numbers, size_t *range_count) {
    const size_t *given = (const size_t *)numbers;
    size_t *places = (size_t *)range_numbers, count = table->count;
    if (table->width == 4)
        return ipnetwork_v4_ranges_make_numbered((const ipnetwork_v4 *)table->structs, count, given, count, table->index,
                                                 table->index_length, (ipnetwork_v4 *)ranges, 2 * count, places, 2 * count,
                                                 range_count);
    return ipnetwork_v6_ranges_make_numbered((const ipnetwork_v6 *)table->structs, count, given, count, table->index,
                                             table->index_length, (ipnetwork_v6 *)ranges, 2 * count, places, 2 * count,
                                             range_count);
}

/* The number of the range that an address lies in, or -1, which is IPNETWORK_NO_PLACE as a place. */
static inline int64_t number_of(const searched_list *ranges, const int64_t *numbers, const uint8_t *address) {
    const size_t *places = (const size_t *)numbers;
    ipnetwork_place found =
        ranges->width == 4
            ? ipnetwork_v4_ranges_place((const ipnetwork_v4 *)ranges->structs, ranges->count, places, ranges->count,
                                        ranges->index, ranges->index_length, address)
            : ipnetwork_v6_ranges_place((const ipnetwork_v6 *)ranges->structs, ranges->count, places, ranges->count,
                                        ranges->index, ranges->index_length, address);
    return (int64_t)found.place;
}

#endif
