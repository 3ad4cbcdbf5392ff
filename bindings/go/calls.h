/* The calls that Go makes of the library. No function keeps a pointer that it is given. */
#ifndef IPNETWORK_CALLS_H
#define IPNETWORK_CALLS_H

#include "ipnetwork.h"

/* A text that is read or printed, with the result and fault: passed and returned as a copy, so that no Go struct is
 * passed by pointer. Other functions read longer texts. */
enum { LONGEST_TEXT = 64 };
typedef struct {
    char text[LONGEST_TEXT];
    size_t length;
    ipnetwork_ip network;
    ipnetwork_address address;
    ipnetwork_fault fault;
} text_call;

/* The version of the library, and which build it is. */
static inline text_call ipnetwork_go_build(void) {
    text_call call = {{0}};
    call.fault = ipnetwork_build(call.text, sizeof call.text, &call.length);
    return call;
}

text_call ipnetwork_go_read(text_call call);
text_call ipnetwork_go_read_address(text_call call);
text_call ipnetwork_go_text(text_call call);

/* Writes whether each of some packed addresses of one family, of 4 or 16 octets each, is in a set, or the number of its
 * range in a table, or -1. */
ipnetwork_fault ipnetwork_go_contains_column(size_t width, const uint8_t *structs, size_t struct_count, const uint32_t *index,
                                  size_t index_length, const uint8_t *addresses, size_t count, uint8_t *answers);
ipnetwork_fault ipnetwork_go_find_column(size_t width, const uint8_t *structs, size_t struct_count, const uint32_t *index,
                              size_t index_length, const int64_t *numbers, const uint8_t *addresses, size_t count,
                              int64_t *answers);

/* Makes the table of networks of one family: their blocks and the places of the networks, for which there is room. */
ipnetwork_fault ipnetwork_go_table(size_t width, const uint8_t *networks, size_t count, uint8_t *blocks, size_t *places);

/* Makes the ranges of a table by its index, with the number of the longest block of each, or -1, and writes how many
 * there are: at most twice as many as blocks, for which there is room. */
ipnetwork_fault ipnetwork_go_ranges(size_t width, const uint8_t *blocks, size_t count, const uint32_t *index,
                                    size_t index_length, const int64_t *numbers, uint8_t *ranges, int64_t *range_numbers,
                                    size_t *range_count);

/* The length of the index of a list, and the index itself. */
size_t ipnetwork_go_index_size(size_t count);
ipnetwork_fault ipnetwork_go_index(size_t width, const uint8_t *structs, size_t count, uint32_t *index, size_t length);

/* The operations on two sets. */
enum { SET_UNION, SET_INTERSECTION, SET_DIFFERENCE };

ipnetwork_fault ipnetwork_go_operate_v4(int operation, const ipnetwork_v4 *first, size_t first_count, const ipnetwork_v4 *second,
                                        size_t second_count, ipnetwork_v4 *blocks, size_t room, size_t *count);
ipnetwork_fault ipnetwork_go_operate_v6(int operation, const ipnetwork_v6 *first, size_t first_count, const ipnetwork_v6 *second,
                                        size_t second_count, ipnetwork_v6 *blocks, size_t room, size_t *count);

#endif
