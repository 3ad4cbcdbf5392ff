//go:build cgo

#include "calls.h"
#include "ranges.h"

#include <string.h>

text_call ipnetwork_go_read(text_call call) {
    call.fault = ipnetwork_read_with_cause(call.text, call.length, &call.network);
    return call;
}

text_call ipnetwork_go_read_address(text_call call) {
    call.fault = ipnetwork_address_read(call.text, call.length, &call.address);
    return call;
}

text_call ipnetwork_go_text(text_call call) {
    call.fault = ipnetwork_canonical(&call.network, call.text, sizeof call.text, &call.length);
    return call;
}

/* The number of rows in one call of the library; their faults have room here. */
enum { AT_ONCE = 1024 };

static inline size_t at_most(size_t rows) { return rows < AT_ONCE ? rows : AT_ONCE; }

/* The first fault of these rows, if there is one. */
static ipnetwork_fault fault_of_row(const uint8_t *faults, size_t rows) {
    uint8_t all = 0;
    for (size_t row = 0; row < rows; row++) all |= faults[row];
    if (all == IPNETWORK_OK) return IPNETWORK_OK;
    for (size_t row = 0; row < rows; row++)
        if (faults[row] != IPNETWORK_OK) return faults[row];
    return IPNETWORK_OK;
}

ipnetwork_fault ipnetwork_go_contains_column(size_t width, const uint8_t *structs, size_t struct_count,
                                             const uint32_t *index, size_t index_length, const uint8_t *addresses,
                                             size_t count, uint8_t *answers) {
    uint8_t faults[AT_ONCE];
    for (size_t row = 0; row < count; row += AT_ONCE) {
        size_t rows = at_most(count - row);
        ipnetwork_fault fault =
            width == 4
                ? ipnetwork_v4_index_contains_column((const ipnetwork_v4 *)structs, struct_count, index, index_length,
                                                     addresses + row * 4, rows, answers + row, rows, faults, rows)
                : ipnetwork_v6_index_contains_column((const ipnetwork_v6 *)structs, struct_count, index, index_length,
                                                     addresses + row * 16, rows, answers + row, rows, faults, rows);
        if (fault == IPNETWORK_OK) fault = fault_of_row(faults, rows);
        if (fault != IPNETWORK_OK) return fault;
    }
    return IPNETWORK_OK;
}

/* A row without a network keeps -1, which is IPNETWORK_NO_PLACE as a place. Its fault is IPNETWORK_NO_MEMBER, because a
 * search in ranges has no other. */
ipnetwork_fault ipnetwork_go_find_column(size_t width, const uint8_t *structs, size_t struct_count, const uint32_t *index,
                                         size_t index_length, const int64_t *numbers, const uint8_t *addresses,
                                         size_t count, int64_t *answers) {
    uint8_t faults[AT_ONCE];
    memset(answers, 0xff, count * sizeof *answers);
    for (size_t row = 0; row < count; row += AT_ONCE) {
        size_t rows = at_most(count - row), *places = (size_t *)(answers + row);
        ipnetwork_fault fault =
            width == 4
                ? ipnetwork_v4_ranges_find_column((const ipnetwork_v4 *)structs, struct_count, (const size_t *)numbers,
                                                  struct_count, index, index_length, addresses + row * 4, rows, places,
                                                  rows, faults, rows)
                : ipnetwork_v6_ranges_find_column((const ipnetwork_v6 *)structs, struct_count, (const size_t *)numbers,
                                                  struct_count, index, index_length, addresses + row * 16, rows, places,
                                                  rows, faults, rows);
        if (fault != IPNETWORK_OK) return fault;
    }
    return IPNETWORK_OK;
}

ipnetwork_fault ipnetwork_go_table(size_t width, const uint8_t *networks, size_t count, uint8_t *blocks, size_t *places) {
    if (width == 4)
        return ipnetwork_v4_table_make((const ipnetwork_v4 *)networks, count, (ipnetwork_v4 *)blocks, count, places, count);
    return ipnetwork_v6_table_make((const ipnetwork_v6 *)networks, count, (ipnetwork_v6 *)blocks, count, places, count);
}

ipnetwork_fault ipnetwork_go_ranges(size_t width, const uint8_t *blocks, size_t count, const uint32_t *index,
                                    size_t index_length, const int64_t *numbers, uint8_t *ranges, int64_t *range_numbers,
                                    size_t *range_count) {
    searched_list table = {width, blocks, count, index, index_length};
    return table_ranges(&table, numbers, ranges, range_numbers, range_count);
}

size_t ipnetwork_go_index_size(size_t count) { return list_index_size(count); }

ipnetwork_fault ipnetwork_go_index(size_t width, const uint8_t *structs, size_t count, uint32_t *index, size_t length) {
    return list_index(width, structs, count, index, length);
}

ipnetwork_fault ipnetwork_go_operate_v4(int operation, const ipnetwork_v4 *first, size_t first_count, const ipnetwork_v4 *second,
                                        size_t second_count, ipnetwork_v4 *blocks, size_t room, size_t *count) {
    if (operation == SET_UNION) return ipnetwork_v4_union(first, first_count, second, second_count, blocks, room, count);
    if (operation == SET_INTERSECTION) return ipnetwork_v4_intersection(first, first_count, second, second_count, blocks, room, count);
    return ipnetwork_v4_difference(first, first_count, second, second_count, blocks, room, count);
}

ipnetwork_fault ipnetwork_go_operate_v6(int operation, const ipnetwork_v6 *first, size_t first_count, const ipnetwork_v6 *second,
                                        size_t second_count, ipnetwork_v6 *blocks, size_t room, size_t *count) {
    if (operation == SET_UNION) return ipnetwork_v6_union(first, first_count, second, second_count, blocks, room, count);
    if (operation == SET_INTERSECTION) return ipnetwork_v6_intersection(first, first_count, second, second_count, blocks, room, count);
    return ipnetwork_v6_difference(first, first_count, second, second_count, blocks, room, count);
}
