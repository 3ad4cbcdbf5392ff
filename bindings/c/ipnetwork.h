/* IP networks in CIDR notation, IPv4 and IPv6: functions that read them from texts, print them, and answer questions
 * about their addresses.
 *
 * Every function returns an ipnetwork_fault, which is IPNETWORK_OK, 0, or the reason why there is no result. The
 * exceptions are the two functions that return a version and the two that return an ipnetwork_place. Results are
 * written through the last pointers. A call that returns a fault has written nothing, with one exception: a call that
 * returns IPNETWORK_SHORT_BUFFER, and has a pointer for the length of its texts or the number of blocks, has written
 * that.
 *
 * A call checks the prefix length of each struct that it reads: one greater than the width, 32 or 128, is
 * IPNETWORK_PREFIX. But a search in a set or a table does not read every struct, and a search in ranges and the making
 * of an index of a table or ranges check no prefix length.
 *
 * No call allocates memory, or keeps a pointer. Each call may be made from any thread, and from several threads at
 * once, as long as no other thread writes what it reads, or reads or writes what it writes.
 *
 * What the caller must ensure, because no call can check it:
 *   - No pointer is NULL, except with a length of 0, which means an empty text, list or buffer.
 *   - A pointer points to what its type says, or to as many elements as its length says, of at most PTRDIFF_MAX bytes.
 *   - What a call writes does not overlap anything else that the call is given. No object is passed twice, as input and
 *     as output: the functions are compiled as if no other pointer reached what they write, as restrict says. Use a
 *     second object, and copy it.
 *
 * A text is bytes with a length. It need not end with a zero byte, and a zero byte in it is a byte like any other.
 * An address is its octets in network byte order, as in struct in_addr and struct in6_addr: pass
 * (const uint8_t *)&in_addr, or in6_addr.s6_addr. The structs here have no padding, so they may be copied and hashed
 * as bytes.
 */
#ifndef IPNETWORK_H
#define IPNETWORK_H

#include <stddef.h>
#include <stdint.h>

#ifdef __cplusplus
extern "C" {
#endif

/* The version of the names, structs and numbers below, which changes if any of them changes. ipnetwork_abi_version()
 * returns that of the library. Each added call raises the minor version, which ipnetwork_abi_minor_version() returns. A
 * program needs a library of the version that it was compiled with, and of the same or a later minor version. */
#define IPNETWORK_ABI_VERSION 4
#define IPNETWORK_ABI_MINOR_VERSION 0

/* The size of a buffer that is enough for each text of a network of the family, and a zero byte. */
#define IPNETWORK_V4_TEXT 19
#define IPNETWORK_V6_TEXT 44

/* The same for an address of either family. */
#define IPNETWORK_ADDRESS_TEXT 40

/* The same for the text of a fault. */
#define IPNETWORK_FAULT_TEXT 40

/* The same for the text that says which build the library is. */
#define IPNETWORK_BUILD_TEXT 64

typedef uint32_t ipnetwork_fault;

enum {
    IPNETWORK_OK = 0,
    IPNETWORK_FORMAT = 1,       /* the text has two or more '/' */
    IPNETWORK_ADDRESS = 2,      /* the part before the '/', or the whole text if it has none, is not an address of
                                   the family; from ipnetwork_read and ipnetwork_read_column: the text names no
                                   network of either family */
    IPNETWORK_PREFIX = 3,       /* not a prefix length of the family, in a text, an argument or a struct */
    IPNETWORK_SHORT_BUFFER = 4, /* no room for the text and a zero byte, or for all rows or blocks */
    IPNETWORK_NO_MASK = 5,      /* the address is not a mask */
    IPNETWORK_NO_MEMBER = 6,    /* the network has no member, or no block, of that number; no block has the address;
                                   or the address is not IPv4-mapped */
    IPNETWORK_NO_FAMILY = 7,    /* a family that is neither 4 nor 6, or an address of neither 4 nor 16 octets */
    IPNETWORK_NO_OFFSETS = 8,   /* offsets of a column that decrease, or go past the end of its texts */
    IPNETWORK_NO_RANGE = 9,     /* a range whose first address comes after its last */
    IPNETWORK_NO_SET = 10       /* a list that is not the shortest list of a set, as aggregate leaves it */
};

/* IPNETWORK_CHECKED: the result must be used, and no pointer may be NULL. IPNETWORK_CHECKED_AT: the arguments with
 * these numbers must not be NULL; other pointers may be if their length is 0. IPNETWORK_CHECKED_FAULT: each pointer may
 * be NULL if its length is 0. IPNETWORK_ALONE: no other pointer reaches the memory. */
#if defined(__GNUC__)
#define IPNETWORK_CHECKED __attribute__((warn_unused_result, nonnull))
#define IPNETWORK_CHECKED_AT(numbers) __attribute__((warn_unused_result, nonnull numbers))
#define IPNETWORK_CHECKED_FAULT __attribute__((warn_unused_result))
#else
#define IPNETWORK_CHECKED
#define IPNETWORK_CHECKED_AT(numbers)
#define IPNETWORK_CHECKED_FAULT
#endif
#if !defined(__cplusplus) && defined(__STDC_VERSION__) && __STDC_VERSION__ >= 199901L
#define IPNETWORK_ALONE restrict
#else
#define IPNETWORK_ALONE
#endif

/* An IPv4 network: an address, host bits included, and a prefix length of 0 to 32. */
typedef struct ipnetwork_v4 {
    uint8_t address[4];
    uint8_t prefix;
} ipnetwork_v4;

/* An IPv6 network: an address, host bits included, and a prefix length of 0 to 128. */
typedef struct ipnetwork_v6 {
    uint8_t address[16];
    uint8_t prefix;
} ipnetwork_v6;

/* A network of either family: the family, 4 or 6, and the struct of that family. The other struct is ignored. */
typedef struct ipnetwork_ip {
    uint8_t family;
    ipnetwork_v4 v4;
    ipnetwork_v6 v6;
} ipnetwork_ip;

/* An address of either family: its octets, the highest first, and their number, 4 or 16. Calls that write an IPv4
 * address set the other 12 octets to 0; calls that read one ignore them. */
typedef struct ipnetwork_address {
    uint8_t octets[16];
    uint8_t length;
} ipnetwork_address;

/* The result of a search by ranges: the place, or the number, of the range that was found, or IPNETWORK_NO_PLACE. It is
 * a struct so that it is not mistaken for a Boolean or a fault. */
typedef struct ipnetwork_place {
    size_t place;
} ipnetwork_place;

uint32_t ipnetwork_abi_version(void);
uint32_t ipnetwork_abi_minor_version(void);

/* Writes the version of the library and which build it is, such as "0.2.0 (proved)" or "0.2.0 (plain Rust, made of proved
 * sources)", and a zero byte to the front of a buffer of buffer_length bytes, of which IPNETWORK_BUILD_TEXT are enough.
 * *text_length and IPNETWORK_SHORT_BUFFER are as for ipnetwork_v4_canonical. */
IPNETWORK_CHECKED_AT((3)) ipnetwork_fault ipnetwork_build(char *IPNETWORK_ALONE buffer, size_t buffer_length,
                                                         size_t *IPNETWORK_ALONE text_length);

/* Writes a short text for a fault, "unknown fault" for a number that is not one, and a zero byte to the front of a
 * buffer of buffer_length bytes, of which IPNETWORK_FAULT_TEXT are enough. *text_length and IPNETWORK_SHORT_BUFFER are
 * as for ipnetwork_v4_canonical. */
IPNETWORK_CHECKED_AT((4)) ipnetwork_fault ipnetwork_fault_text(ipnetwork_fault fault, char *IPNETWORK_ALONE buffer,
                                                              size_t buffer_length,
                                                              size_t *IPNETWORK_ALONE text_length);

/* Reads the network that a text names: an address, which may be followed by a '/' and a prefix length (an optional '+'
 * and decimal digits, with or without leading zeros) or, only for IPv4, by a '/' and one of the 33 masks, as an
 * address. Without a '/', the prefix length is the full width, 32 or 128. An IPv4 address is four decimal numbers
 * without leading zeros (RFC 3986, section 3.2.2); an IPv6 address has the forms of RFC 4291, section 2.2. Host bits
 * are kept. For any other text the fault is IPNETWORK_FORMAT, IPNETWORK_ADDRESS or IPNETWORK_PREFIX, the first that
 * applies. */
IPNETWORK_CHECKED_AT((3)) ipnetwork_fault ipnetwork_v4_read(const char *text, size_t text_length,
                                                           ipnetwork_v4 *IPNETWORK_ALONE network);
IPNETWORK_CHECKED_AT((3)) ipnetwork_fault ipnetwork_v6_read(const char *text, size_t text_length,
                                                           ipnetwork_v6 *IPNETWORK_ALONE network);

/* Reads the network of either family that a text names; the struct of the other family is all zeros. For any other text
 * the fault is IPNETWORK_ADDRESS, whatever is wrong with it. */
IPNETWORK_CHECKED_AT((3)) ipnetwork_fault ipnetwork_read(const char *text, size_t text_length,
                                                        ipnetwork_ip *IPNETWORK_ALONE network);

/* The same, but the fault says what is wrong: IPNETWORK_FORMAT if the text has two or more '/'; else IPNETWORK_ADDRESS
 * if the part before the '/', or the whole text if it has none, is not an address of either family; else
 * IPNETWORK_PREFIX. */
IPNETWORK_CHECKED_AT((3)) ipnetwork_fault ipnetwork_read_with_cause(const char *text, size_t text_length,
                                                                   ipnetwork_ip *IPNETWORK_ALONE network);

/* Makes the network of this address, host bits kept, and this prefix length. IPNETWORK_PREFIX if the prefix length is
 * greater than the width. */
IPNETWORK_CHECKED ipnetwork_fault ipnetwork_v4_new(const uint8_t address[4], uint8_t prefix,
                                                   ipnetwork_v4 *IPNETWORK_ALONE network);
IPNETWORK_CHECKED ipnetwork_fault ipnetwork_v6_new(const uint8_t address[16], uint8_t prefix,
                                                   ipnetwork_v6 *IPNETWORK_ALONE network);

/* Writes the canonical text of the network, host bits kept, and a zero byte to the front of a buffer of buffer_length
 * bytes. IPv6 addresses are printed as RFC 5952, section 4, says; of the addresses in its section 5, only IPv4-mapped
 * ones end in dotted decimal. *text_length is the length of the text, without the zero byte. IPNETWORK_SHORT_BUFFER if
 * buffer_length is not greater than that: then *text_length is written, but the buffer is not. To get only the length,
 * pass 0 as buffer_length, with any pointer or NULL. */
IPNETWORK_CHECKED_AT((1, 4)) ipnetwork_fault ipnetwork_v4_canonical(const ipnetwork_v4 *network,
                                                                   char *IPNETWORK_ALONE buffer, size_t buffer_length,
                                                                   size_t *IPNETWORK_ALONE text_length);
IPNETWORK_CHECKED_AT((1, 4)) ipnetwork_fault ipnetwork_v6_canonical(const ipnetwork_v6 *network,
                                                                   char *IPNETWORK_ALONE buffer, size_t buffer_length,
                                                                   size_t *IPNETWORK_ALONE text_length);

/* Whether an address is a member of the network, that is, whether its first bits, as many as the prefix length says,
 * are those of the network's address. *answer is 1 or 0. */
IPNETWORK_CHECKED ipnetwork_fault ipnetwork_v4_contains(const ipnetwork_v4 *network, const uint8_t address[4],
                                                        uint8_t *IPNETWORK_ALONE answer);
IPNETWORK_CHECKED ipnetwork_fault ipnetwork_v6_contains(const ipnetwork_v6 *network, const uint8_t address[16],
                                                        uint8_t *IPNETWORK_ALONE answer);

/* The same for many addresses in one call: answers[i] is what ipnetwork_v4_contains or ipnetwork_v6_contains writes for
 * address i. There are address_count addresses, of 4 or 16 octets each, one after the other. IPNETWORK_PREFIX if the
 * prefix length is greater than the width, else IPNETWORK_SHORT_BUFFER if answer_count, the number of answers that
 * there is room for, is less than address_count. Answers past address_count are not written. */
IPNETWORK_CHECKED_AT((1)) ipnetwork_fault ipnetwork_v4_contains_column(const ipnetwork_v4 *network,
                                                                     const uint8_t *addresses,
                                                                     size_t address_count,
                                                                     uint8_t *IPNETWORK_ALONE answers,
                                                                     size_t answer_count);
IPNETWORK_CHECKED_AT((1)) ipnetwork_fault ipnetwork_v6_contains_column(const ipnetwork_v6 *network,
                                                                     const uint8_t *addresses,
                                                                     size_t address_count,
                                                                     uint8_t *IPNETWORK_ALONE answers,
                                                                     size_t answer_count);

/* Whether an address of 4 or 16 octets is a member of a network of either family. No address of the other family is a
 * member, not even an IPv4-mapped IPv6 address of an IPv4 network. IPNETWORK_NO_FAMILY if the family of the struct is
 * neither 4 nor 6, or address_length is neither 4 nor 16; else IPNETWORK_PREFIX if the prefix length is greater than
 * the width of the family. */
IPNETWORK_CHECKED_AT((1, 4)) ipnetwork_fault ipnetwork_contains(const ipnetwork_ip *network, const uint8_t *address,
                                                               size_t address_length, uint8_t *IPNETWORK_ALONE answer);

/* The calls with these names for IPv4 and IPv6, but for networks of either family. IPNETWORK_NO_FAMILY if the family of
 * a struct is neither 4 nor 6, else IPNETWORK_PREFIX if its prefix length is greater than the width of that family; of
 * two structs the first is checked first. Networks of different families share no address, and neither is a subnet of
 * the other; each IPv4 network comes before each IPv6 network. For ipnetwork_canonical, IPNETWORK_V6_TEXT bytes are
 * enough. */
IPNETWORK_CHECKED_AT((1, 4)) ipnetwork_fault ipnetwork_canonical(const ipnetwork_ip *network,
                                                                char *IPNETWORK_ALONE buffer, size_t buffer_length,
                                                                size_t *IPNETWORK_ALONE text_length);
IPNETWORK_CHECKED ipnetwork_fault ipnetwork_network(const ipnetwork_ip *network,
                                                    ipnetwork_address *IPNETWORK_ALONE address);
IPNETWORK_CHECKED ipnetwork_fault ipnetwork_broadcast(const ipnetwork_ip *network,
                                                      ipnetwork_address *IPNETWORK_ALONE address);
IPNETWORK_CHECKED ipnetwork_fault ipnetwork_mask(const ipnetwork_ip *network, ipnetwork_address *IPNETWORK_ALONE mask);
IPNETWORK_CHECKED ipnetwork_fault ipnetwork_is_subnet_of(const ipnetwork_ip *inner, const ipnetwork_ip *outer,
                                                         uint8_t *IPNETWORK_ALONE answer);
IPNETWORK_CHECKED ipnetwork_fault ipnetwork_overlaps(const ipnetwork_ip *one, const ipnetwork_ip *other,
                                                     uint8_t *IPNETWORK_ALONE answer);
IPNETWORK_CHECKED ipnetwork_fault ipnetwork_compare(const ipnetwork_ip *one, const ipnetwork_ip *other,
                                                    int32_t *IPNETWORK_ALONE order);

/* Reads the address of either family that a text names, in the forms that ipnetwork_read takes before a '/'. For any
 * other text, such as one with a '/' or a zone, the fault is IPNETWORK_ADDRESS. */
IPNETWORK_CHECKED_AT((3)) ipnetwork_fault ipnetwork_address_read(const char *text, size_t text_length,
                                                                ipnetwork_address *IPNETWORK_ALONE address);

/* Writes the IPv4 address in an IPv4-mapped address, one of ::ffff:0:0/96 (RFC 4291, section 2.5.5.2), and any other
 * address as it is. A socket for both families reports its IPv4 peers as mapped addresses, which are found in lists of
 * IPv4 networks only after this. An entry such as ::ffff:10.0.0.0/104 or ::/0 has the IPv6 address itself: ask
 * about both. What is said of either form counts: an IPv4-mapped IPv6 address is a member if the IPv4 address, or the
 * IPv6 address itself, is one; its longest network is that of the IPv4 address, and if there is none that of the
 * IPv6 address; and so for a network within ::ffff:0:0/96. IPNETWORK_NO_FAMILY if the length in the struct is neither 4
 * nor 16. */
IPNETWORK_CHECKED ipnetwork_fault ipnetwork_address_unmapped(const ipnetwork_address *address,
                                                             ipnetwork_address *IPNETWORK_ALONE unmapped);

/* Writes the octets of the IPv4 address in an IPv4-mapped address. IPNETWORK_NO_MEMBER if the address is not
 * IPv4-mapped. */
IPNETWORK_CHECKED ipnetwork_fault ipnetwork_v6_unmapped(const uint8_t address[16], uint8_t unmapped[IPNETWORK_ALONE 4]);

/* Writes the canonical text of an address and a zero byte, as ipnetwork_canonical prints the address of a network, to a
 * buffer of which IPNETWORK_ADDRESS_TEXT bytes are enough. IPNETWORK_NO_FAMILY if the length in the struct is neither 4
 * nor 16. */
IPNETWORK_CHECKED_AT((1, 4)) ipnetwork_fault ipnetwork_address_canonical(const ipnetwork_address *address,
    char *IPNETWORK_ALONE buffer, size_t buffer_length, size_t *IPNETWORK_ALONE text_length);

/* The least member (the address with its host bits cleared), the greatest member (the address with its host bits set),
 * and the mask. */
IPNETWORK_CHECKED ipnetwork_fault ipnetwork_v4_network(const ipnetwork_v4 *network, uint8_t address[IPNETWORK_ALONE 4]);
IPNETWORK_CHECKED ipnetwork_fault ipnetwork_v6_network(const ipnetwork_v6 *network,
                                                       uint8_t address[IPNETWORK_ALONE 16]);
IPNETWORK_CHECKED ipnetwork_fault ipnetwork_v4_broadcast(const ipnetwork_v4 *network,
                                                         uint8_t address[IPNETWORK_ALONE 4]);
IPNETWORK_CHECKED ipnetwork_fault ipnetwork_v6_broadcast(const ipnetwork_v6 *network,
                                                         uint8_t address[IPNETWORK_ALONE 16]);
IPNETWORK_CHECKED ipnetwork_fault ipnetwork_v4_mask(const ipnetwork_v4 *network, uint8_t mask[IPNETWORK_ALONE 4]);
IPNETWORK_CHECKED ipnetwork_fault ipnetwork_v6_mask(const ipnetwork_v6 *network, uint8_t mask[IPNETWORK_ALONE 16]);

/* The prefix length of a mask. IPNETWORK_NO_MASK if the address is not one of the 33 or 129 masks. */
IPNETWORK_CHECKED ipnetwork_fault ipnetwork_v4_prefix_of_mask(const uint8_t mask[4], uint8_t *IPNETWORK_ALONE prefix);
IPNETWORK_CHECKED ipnetwork_fault ipnetwork_v6_prefix_of_mask(const uint8_t mask[16], uint8_t *IPNETWORK_ALONE prefix);

/* The number of members: two to the power of the number of host bits, thus 2^32 or 2^128 for prefix length 0. For IPv6
 * it is 17 octets, the highest first: the first octet is 1 for prefix length 0, and 0 for any other. */
IPNETWORK_CHECKED ipnetwork_fault ipnetwork_v4_size(const ipnetwork_v4 *network, uint64_t *IPNETWORK_ALONE size);
IPNETWORK_CHECKED ipnetwork_fault ipnetwork_v6_size(const ipnetwork_v6 *network, uint8_t size[IPNETWORK_ALONE 17]);

/* Member number n in ascending order, counted from 0; for IPv6, n is 16 octets, the highest first. Number 0 is the
 * least member. Every member has a number, also for prefix length 0: the last one is 2^32 - 1 or 2^128 - 1.
 * IPNETWORK_NO_MEMBER if n is not less than the number of members. */
IPNETWORK_CHECKED ipnetwork_fault ipnetwork_v4_nth(const ipnetwork_v4 *network, uint32_t n,
                                                   uint8_t address[IPNETWORK_ALONE 4]);
IPNETWORK_CHECKED ipnetwork_fault ipnetwork_v6_nth(const ipnetwork_v6 *network, const uint8_t n[16],
                                                   uint8_t address[IPNETWORK_ALONE 16]);

/* Whether each member of inner is a member of outer: *answer is 1 or 0. Host bits make no difference. */
IPNETWORK_CHECKED ipnetwork_fault ipnetwork_v4_is_subnet_of(const ipnetwork_v4 *inner, const ipnetwork_v4 *outer,
                                                            uint8_t *IPNETWORK_ALONE answer);
IPNETWORK_CHECKED ipnetwork_fault ipnetwork_v6_is_subnet_of(const ipnetwork_v6 *inner, const ipnetwork_v6 *outer,
                                                            uint8_t *IPNETWORK_ALONE answer);

/* Whether some address is a member of both networks: *answer is 1 or 0. */
IPNETWORK_CHECKED ipnetwork_fault ipnetwork_v4_overlaps(const ipnetwork_v4 *one, const ipnetwork_v4 *other,
                                                        uint8_t *IPNETWORK_ALONE answer);
IPNETWORK_CHECKED ipnetwork_fault ipnetwork_v6_overlaps(const ipnetwork_v6 *one, const ipnetwork_v6 *other,
                                                        uint8_t *IPNETWORK_ALONE answer);

/* Which network comes first, by address, host bits included, and then by prefix length: *order is -1 if one does, 1 if
 * other does, and 0 if they are equal. */
IPNETWORK_CHECKED ipnetwork_fault ipnetwork_v4_compare(const ipnetwork_v4 *one, const ipnetwork_v4 *other,
                                                       int32_t *IPNETWORK_ALONE order);
IPNETWORK_CHECKED ipnetwork_fault ipnetwork_v6_compare(const ipnetwork_v6 *one, const ipnetwork_v6 *other,
                                                       int32_t *IPNETWORK_ALONE order);

/* Replaces network_count networks, in any order and with or without host bits, by their aggregate: the fewest blocks
 * with the same addresses, in ascending order and without host bits, in the front of the array. *block_count is their
 * number; the networks after them are unspecified. For the union of lists, aggregate one array with all their networks.
 * IPNETWORK_PREFIX if a prefix length is greater than the width. */
IPNETWORK_CHECKED_AT((3)) ipnetwork_fault ipnetwork_v4_aggregate(ipnetwork_v4 *IPNETWORK_ALONE networks,
                                                                size_t network_count,
                                                                size_t *IPNETWORK_ALONE block_count);
IPNETWORK_CHECKED_AT((3)) ipnetwork_fault ipnetwork_v6_aggregate(ipnetwork_v6 *IPNETWORK_ALONE networks,
                                                                size_t network_count,
                                                                size_t *IPNETWORK_ALONE block_count);

/* Makes a table of network_count networks, in any order and with or without host bits, for the next calls. Writes the
 * block of each network to the front of blocks, in ascending order, and for each block the number of its network,
 * counted from 0, to the front of places. So blocks[i] is the block of networks[places[i]], and the caller finds what
 * belongs to a network by places[i]. Equal blocks are in the order of their networks; of these, the next calls find the
 * last one. The rest of blocks and places is not written. IPNETWORK_PREFIX if a prefix length is greater than the
 * width; else IPNETWORK_SHORT_BUFFER if block_count or place_count, the numbers of blocks and places that there is room
 * for, is less than network_count. */
IPNETWORK_CHECKED_FAULT ipnetwork_fault ipnetwork_v4_table_make(const ipnetwork_v4 *networks, size_t network_count,
    ipnetwork_v4 *IPNETWORK_ALONE blocks, size_t block_count, size_t *IPNETWORK_ALONE places, size_t place_count);
IPNETWORK_CHECKED_FAULT ipnetwork_fault ipnetwork_v6_table_make(const ipnetwork_v6 *networks, size_t network_count,
    ipnetwork_v6 *IPNETWORK_ALONE blocks, size_t block_count, size_t *IPNETWORK_ALONE places, size_t place_count);

/* Makes an index of the list of a set, as aggregate leaves it: index_length numbers of 32 bits in the caller's memory,
 * by which the next calls search the list in a few steps. IPNETWORK_PREFIX if a prefix length is greater than the
 * width, else IPNETWORK_NO_SET if the list is not that of a set: in such a list, the search of an address may miss it.
 * Then nothing is written. The addresses from the first of the list to the last are divided into index_length parts of
 * equal size, the least possible power of two. index[0] is the exponent of that power, and each other index[i] is the
 * number of blocks that begin before part i, at most 2^32 - 1. ipnetwork_index_size writes how long the index of
 * block_count blocks should be: four numbers for each block, but at most 2^20. A shorter index makes a search slower, a
 * longer one hardly faster; with none (NULL and length 0) it is a binary search of the list. If the list changes, make
 * its index again. */
IPNETWORK_CHECKED ipnetwork_fault ipnetwork_index_size(size_t block_count, size_t *IPNETWORK_ALONE index_length);
IPNETWORK_CHECKED_FAULT ipnetwork_fault ipnetwork_v4_index_make(const ipnetwork_v4 *blocks, size_t block_count,
    uint32_t *IPNETWORK_ALONE index, size_t index_length);
IPNETWORK_CHECKED_FAULT ipnetwork_fault ipnetwork_v6_index_make(const ipnetwork_v6 *blocks, size_t block_count,
    uint32_t *IPNETWORK_ALONE index, size_t index_length);

/* The same for a table, as ipnetwork_v4_table_make and ipnetwork_v6_table_make leave it, or for ranges, as the calls
 * below make them. It is not checked that the list is one of these: an index is made of any list. Search a table by
 * ipnetwork_v4_index_find or ipnetwork_v6_index_find: the calls that ask whether a set has an address answer 0 for one
 * that is only in a block around others. */
IPNETWORK_CHECKED_FAULT ipnetwork_fault ipnetwork_v4_table_index_make(const ipnetwork_v4 *blocks, size_t block_count,
    uint32_t *IPNETWORK_ALONE index, size_t index_length);
IPNETWORK_CHECKED_FAULT ipnetwork_fault ipnetwork_v6_table_index_make(const ipnetwork_v6 *blocks, size_t block_count,
    uint32_t *IPNETWORK_ALONE index, size_t index_length);

/* Whether an address is in the set of block_count blocks, as aggregate leaves them: *answer is 1 or 0. index is an
 * index of the blocks, or NULL with length 0. It only says where the search begins. If the blocks ascend, the result is
 * the same whatever the index holds: an index of another list only costs time. If they do not, the result may depend on
 * the index. It is not checked that the list is that of a set. Of an unsorted list, or of one in which a block lies in
 * another, 1 is right too, but 0 says nothing: aggregate it first, or ask each network of the list by
 * ipnetwork_v4_contains or ipnetwork_v6_contains. ipnetwork_v4_index_make and ipnetwork_v6_index_make refuse a list that
 * is not that of a set. Not every struct is read: if the structs ascend, the search ends at the last one whose own
 * address is at or before this address. IPNETWORK_PREFIX exactly if the prefix length of the struct at which the search
 * ends is greater than the width, which never occurs in the list of a set. */
IPNETWORK_CHECKED_AT((5, 6)) ipnetwork_fault ipnetwork_v4_index_contains(const ipnetwork_v4 *blocks, size_t block_count,
    const uint32_t *index, size_t index_length, const uint8_t address[4], uint8_t *IPNETWORK_ALONE answer);
IPNETWORK_CHECKED_AT((5, 6)) ipnetwork_fault ipnetwork_v6_index_contains(const ipnetwork_v6 *blocks, size_t block_count,
    const uint32_t *index, size_t index_length, const uint8_t address[16], uint8_t *IPNETWORK_ALONE answer);

/* Finds the longest block of a table that has an address. A table is block_count blocks without host bits in ascending
 * order, as ipnetwork_v4_compare and ipnetwork_v6_compare order them, and as ipnetwork_v4_table_make and
 * ipnetwork_v6_table_make leave them; some may contain others. *place is the place of the block in the table, counted
 * from 0, and of equal blocks that of the last one. IPNETWORK_NO_MEMBER if no block has the address. index is an index
 * of the table, or NULL with length 0: what it holds makes no more difference than above. It is not checked that the
 * list is a table. For any other list the block at *place has the address too, but there may be a longer one, and
 * IPNETWORK_NO_MEMBER says nothing. Not every struct is read: the search begins at the last block at or before the
 * address, and goes on from a block that does not have it to the last block before that at which one with the address
 * can begin. IPNETWORK_PREFIX at the first struct that the search reaches whose prefix length is greater than the
 * width. */
IPNETWORK_CHECKED_AT((5, 6)) ipnetwork_fault ipnetwork_v4_index_find(const ipnetwork_v4 *blocks, size_t block_count,
    const uint32_t *index, size_t index_length, const uint8_t address[4], size_t *IPNETWORK_ALONE place);
IPNETWORK_CHECKED_AT((5, 6)) ipnetwork_fault ipnetwork_v6_index_find(const ipnetwork_v6 *blocks, size_t block_count,
    const uint32_t *index, size_t index_length, const uint8_t address[16], size_t *IPNETWORK_ALONE place);

/* Both for many addresses in one call: answers[i] or places[i], and faults[i], are what the call for one address
 * leaves and returns for address i. A fault leaves the answer or place of its address unchanged, and does not stop the
 * call. If the blocks are not in ascending order, an answer may come from another block than in the call for one
 * address. There are address_count addresses, of 4 or 16 octets each, one after the other. The rest of answers or
 * places, and faults, is not written. IPNETWORK_SHORT_BUFFER if there is room for fewer answers or places, or faults,
 * than addresses: then nothing is written. */
IPNETWORK_CHECKED_FAULT ipnetwork_fault ipnetwork_v4_index_contains_column(const ipnetwork_v4 *blocks, size_t block_count,
    const uint32_t *index, size_t index_length, const uint8_t *addresses, size_t address_count,
    uint8_t *IPNETWORK_ALONE answers, size_t answer_count, uint8_t *IPNETWORK_ALONE faults, size_t fault_count);
IPNETWORK_CHECKED_FAULT ipnetwork_fault ipnetwork_v6_index_contains_column(const ipnetwork_v6 *blocks, size_t block_count,
    const uint32_t *index, size_t index_length, const uint8_t *addresses, size_t address_count,
    uint8_t *IPNETWORK_ALONE answers, size_t answer_count, uint8_t *IPNETWORK_ALONE faults, size_t fault_count);
IPNETWORK_CHECKED_FAULT ipnetwork_fault ipnetwork_v4_index_find_column(const ipnetwork_v4 *blocks, size_t block_count,
    const uint32_t *index, size_t index_length, const uint8_t *addresses, size_t address_count,
    size_t *IPNETWORK_ALONE places, size_t place_count, uint8_t *IPNETWORK_ALONE faults, size_t fault_count);
IPNETWORK_CHECKED_FAULT ipnetwork_fault ipnetwork_v6_index_find_column(const ipnetwork_v6 *blocks, size_t block_count,
    const uint32_t *index, size_t index_length, const uint8_t *addresses, size_t address_count,
    size_t *IPNETWORK_ALONE places, size_t place_count, uint8_t *IPNETWORK_ALONE faults, size_t fault_count);

/* Divides a table into ranges of addresses that all have the same longest block, so that the next calls find it by one
 * search, where those above often need several. blocks is a table, as ipnetwork_v4_table_make and
 * ipnetwork_v6_table_make leave it. A range begins where a block begins, and right after the last address of a block
 * unless that is the last address of all. If several blocks begin or end there, the same range may be listed several
 * times. ranges[i] is the first address of range i, with prefix length 32 or 128, in ascending order. places[i] is the
 * place in blocks of the longest block that has the addresses from there to the next range, and of equal blocks that of
 * the last one, or IPNETWORK_NO_PLACE if no block has them. Before ranges[0], no block has an address. *range_count is
 * the number of ranges, at most 2 * block_count; the rest of ranges and places is not written. It is not checked that
 * the list is a table. For any other list the block at each place has the addresses too, but there may be a longer one,
 * and IPNETWORK_NO_PLACE says nothing. IPNETWORK_PREFIX if a prefix length is greater than the width, else
 * IPNETWORK_SHORT_BUFFER if range_room or place_room, the numbers of ranges and places that there is room for, is less
 * than 2 * block_count: then nothing is written. The call takes the time of a sort, and of a call of
 * ipnetwork_v4_index_find or ipnetwork_v6_index_find with this index for each range. index is an index of blocks, or
 * NULL with length 0; for a table, the index of another list only costs time. */
#define IPNETWORK_NO_PLACE ((size_t)-1)
IPNETWORK_CHECKED_AT((9)) ipnetwork_fault ipnetwork_v4_ranges_make(const ipnetwork_v4 *blocks, size_t block_count,
    const uint32_t *index, size_t index_length, ipnetwork_v4 *IPNETWORK_ALONE ranges, size_t range_room,
    size_t *IPNETWORK_ALONE places, size_t place_room, size_t *IPNETWORK_ALONE range_count);
IPNETWORK_CHECKED_AT((9)) ipnetwork_fault ipnetwork_v6_ranges_make(const ipnetwork_v6 *blocks, size_t block_count,
    const uint32_t *index, size_t index_length, ipnetwork_v6 *IPNETWORK_ALONE ranges, size_t range_room,
    size_t *IPNETWORK_ALONE places, size_t place_room, size_t *IPNETWORK_ALONE range_count);

/* The same, but range_numbers[i] is, instead of the place of the longest block, the number at that place in numbers. If
 * numbers are the places of a table, as ipnetwork_v4_table_make and ipnetwork_v6_table_make leave them, it is the
 * number of the block's network in the caller's list. IPNETWORK_SHORT_BUFFER, before any other fault, if number_count
 * is less than block_count. Pass range_numbers as places to the next calls; they take a number IPNETWORK_NO_PLACE as no
 * block. */
IPNETWORK_CHECKED_AT((11)) ipnetwork_fault ipnetwork_v4_ranges_make_numbered(const ipnetwork_v4 *blocks, size_t block_count,
    const size_t *numbers, size_t number_count, const uint32_t *index, size_t index_length,
    ipnetwork_v4 *IPNETWORK_ALONE ranges, size_t range_room, size_t *IPNETWORK_ALONE range_numbers, size_t range_number_room,
    size_t *IPNETWORK_ALONE range_count);
IPNETWORK_CHECKED_AT((11)) ipnetwork_fault ipnetwork_v6_ranges_make_numbered(const ipnetwork_v6 *blocks, size_t block_count,
    const size_t *numbers, size_t number_count, const uint32_t *index, size_t index_length,
    ipnetwork_v6 *IPNETWORK_ALONE ranges, size_t range_room, size_t *IPNETWORK_ALONE range_numbers, size_t range_number_room,
    size_t *IPNETWORK_ALONE range_count);

/* Find what ipnetwork_v4_index_find and ipnetwork_v6_index_find find in a table, but by its ranges and their places, as
 * the calls above make them, and by an index of the ranges, as ipnetwork_v4_table_index_make and
 * ipnetwork_v6_table_index_make make it, or NULL with length 0. *place is the place of the last range that begins at or
 * before the address. IPNETWORK_NO_MEMBER if there is no such range, or if its place is IPNETWORK_NO_PLACE or missing:
 * then *place is not written. The index only says where the search begins: if the ranges ascend, the result is the same
 * whatever it holds. Ranges and places are not checked: of any others, *place is what the places say, and if the ranges
 * do not ascend, it may be the place of another range. If the table changes, make them again. */
IPNETWORK_CHECKED_AT((7, 8)) ipnetwork_fault ipnetwork_v4_ranges_find(const ipnetwork_v4 *ranges, size_t range_count,
    const size_t *places, size_t place_count, const uint32_t *index, size_t index_length, const uint8_t address[4],
    size_t *IPNETWORK_ALONE place);
IPNETWORK_CHECKED_AT((7, 8)) ipnetwork_fault ipnetwork_v6_ranges_find(const ipnetwork_v6 *ranges, size_t range_count,
    const size_t *places, size_t place_count, const uint32_t *index, size_t index_length, const uint8_t address[16],
    size_t *IPNETWORK_ALONE place);

/* Return the place that the calls above write, or IPNETWORK_NO_PLACE if they find none. For one address, these calls
 * are the fastest. */
IPNETWORK_CHECKED_AT((7)) ipnetwork_place ipnetwork_v4_ranges_place(const ipnetwork_v4 *ranges, size_t range_count,
    const size_t *places, size_t place_count, const uint32_t *index, size_t index_length, const uint8_t address[4]);
IPNETWORK_CHECKED_AT((7)) ipnetwork_place ipnetwork_v6_ranges_place(const ipnetwork_v6 *ranges, size_t range_count,
    const size_t *places, size_t place_count, const uint32_t *index, size_t index_length, const uint8_t address[16]);

/* The same as ipnetwork_v4_ranges_find and ipnetwork_v6_ranges_find for many addresses in one call: found[i] and
 * faults[i] are what they leave and return for address i. An address without a block leaves its place unchanged, and
 * does not stop the call. There are address_count addresses, of 4 or 16 octets each, one after the other. The rest of
 * found and faults is not written. IPNETWORK_SHORT_BUFFER if there is room for fewer places or faults than addresses:
 * then nothing is written. */
IPNETWORK_CHECKED_FAULT ipnetwork_fault ipnetwork_v4_ranges_find_column(const ipnetwork_v4 *ranges, size_t range_count,
    const size_t *places, size_t place_count, const uint32_t *index, size_t index_length, const uint8_t *addresses,
    size_t address_count, size_t *IPNETWORK_ALONE found, size_t found_count, uint8_t *IPNETWORK_ALONE faults,
    size_t fault_count);
IPNETWORK_CHECKED_FAULT ipnetwork_fault ipnetwork_v6_ranges_find_column(const ipnetwork_v6 *ranges, size_t range_count,
    const size_t *places, size_t place_count, const uint32_t *index, size_t index_length, const uint8_t *addresses,
    size_t address_count, size_t *IPNETWORK_ALONE found, size_t found_count, uint8_t *IPNETWORK_ALONE faults,
    size_t fault_count);

/* The union of two sets, their intersection, and their difference (the addresses in the first set and not in the
 * second): the fewest blocks with these addresses, in ascending order and without host bits, in the front of blocks, an
 * array with room for room blocks. Each set is given by its list of blocks, as aggregate or one of these calls leaves
 * it; this is checked. *block_count is the number of blocks: for a union at most first_count + second_count, for a
 * difference maybe more. IPNETWORK_PREFIX if a prefix length is greater than the width, else IPNETWORK_NO_SET if one of
 * the lists is not the list of a set, else IPNETWORK_SHORT_BUFFER if *block_count is greater than room: then
 * *block_count is written, but blocks is not. If room is 0, blocks may be NULL. Both sets may be the same array, but
 * blocks must be another one. */
IPNETWORK_CHECKED_AT((7)) ipnetwork_fault ipnetwork_v4_union(const ipnetwork_v4 *first, size_t first_count,
    const ipnetwork_v4 *second, size_t second_count, ipnetwork_v4 *IPNETWORK_ALONE blocks, size_t room,
    size_t *IPNETWORK_ALONE block_count);
IPNETWORK_CHECKED_AT((7)) ipnetwork_fault ipnetwork_v6_union(const ipnetwork_v6 *first, size_t first_count,
    const ipnetwork_v6 *second, size_t second_count, ipnetwork_v6 *IPNETWORK_ALONE blocks, size_t room,
    size_t *IPNETWORK_ALONE block_count);
IPNETWORK_CHECKED_AT((7)) ipnetwork_fault ipnetwork_v4_intersection(const ipnetwork_v4 *first, size_t first_count,
    const ipnetwork_v4 *second, size_t second_count, ipnetwork_v4 *IPNETWORK_ALONE blocks, size_t room,
    size_t *IPNETWORK_ALONE block_count);
IPNETWORK_CHECKED_AT((7)) ipnetwork_fault ipnetwork_v6_intersection(const ipnetwork_v6 *first, size_t first_count,
    const ipnetwork_v6 *second, size_t second_count, ipnetwork_v6 *IPNETWORK_ALONE blocks, size_t room,
    size_t *IPNETWORK_ALONE block_count);
IPNETWORK_CHECKED_AT((7)) ipnetwork_fault ipnetwork_v4_difference(const ipnetwork_v4 *first, size_t first_count,
    const ipnetwork_v4 *second, size_t second_count, ipnetwork_v4 *IPNETWORK_ALONE blocks, size_t room,
    size_t *IPNETWORK_ALONE block_count);
IPNETWORK_CHECKED_AT((7)) ipnetwork_fault ipnetwork_v6_difference(const ipnetwork_v6 *first, size_t first_count,
    const ipnetwork_v6 *second, size_t second_count, ipnetwork_v6 *IPNETWORK_ALONE blocks, size_t room,
    size_t *IPNETWORK_ALONE block_count);

/* The blocks of the addresses from first to last, both included: the fewest possible, in ascending order and without
 * host bits, in the front of blocks, an array with room for room blocks. There are at most 62 for IPv4, and 254 for
 * IPv6. *block_count is their number. IPNETWORK_NO_RANGE if first comes after last, else IPNETWORK_SHORT_BUFFER if
 * *block_count is greater than room: then *block_count is written, but blocks is not. If room is 0, blocks may be
 * NULL. */
IPNETWORK_CHECKED_AT((1, 2, 5)) ipnetwork_fault ipnetwork_v4_range_to_blocks(const uint8_t first[4], const uint8_t last[4],
    ipnetwork_v4 *IPNETWORK_ALONE blocks, size_t room, size_t *IPNETWORK_ALONE block_count);
IPNETWORK_CHECKED_AT((1, 2, 5)) ipnetwork_fault ipnetwork_v6_range_to_blocks(const uint8_t first[16],
    const uint8_t last[16], ipnetwork_v6 *IPNETWORK_ALONE blocks, size_t room, size_t *IPNETWORK_ALONE block_count);

/* Block number n of this prefix length within a network, counted from 0 in ascending order; for IPv6, n is 16 octets,
 * the highest first. IPNETWORK_PREFIX if the prefix length is less than the network's, or either is greater than the
 * width; else IPNETWORK_NO_MEMBER if the network has at most n such blocks. */
IPNETWORK_CHECKED ipnetwork_fault ipnetwork_v4_subnet_at(const ipnetwork_v4 *network, uint8_t prefix, uint32_t n,
                                                         ipnetwork_v4 *IPNETWORK_ALONE subnet);
IPNETWORK_CHECKED ipnetwork_fault ipnetwork_v6_subnet_at(const ipnetwork_v6 *network, uint8_t prefix,
                                                         const uint8_t n[16], ipnetwork_v6 *IPNETWORK_ALONE subnet);

/* Read the networks, or the addresses, of a column of texts in Arrow's layout: texts_length bytes with all texts, one
 * after the other, and offset_count offsets. Text i goes from offsets[i] to offsets[i + 1], so there is one text less
 * than offsets, and no text if there are no offsets. Arrow's offsets are signed numbers of 32 bits, and none is
 * negative. networks[i] or addresses[i], and faults[i], are what the call for one text leaves and returns for text i. A
 * text that names none leaves its struct unchanged, and does not stop the call. The rest of the structs and faults is
 * not written. IPNETWORK_NO_OFFSETS if an offset is less than the one before, or greater than texts_length; else
 * IPNETWORK_SHORT_BUFFER if there is room for fewer structs or faults than texts: then nothing is written. */
IPNETWORK_CHECKED_FAULT ipnetwork_fault ipnetwork_v4_read_column(const char *texts, size_t texts_length, const uint32_t *offsets,
    size_t offset_count, ipnetwork_v4 *IPNETWORK_ALONE networks, size_t network_count, uint8_t *IPNETWORK_ALONE faults,
    size_t fault_count);
IPNETWORK_CHECKED_FAULT ipnetwork_fault ipnetwork_v6_read_column(const char *texts, size_t texts_length, const uint32_t *offsets,
    size_t offset_count, ipnetwork_v6 *IPNETWORK_ALONE networks, size_t network_count, uint8_t *IPNETWORK_ALONE faults,
    size_t fault_count);
IPNETWORK_CHECKED_FAULT ipnetwork_fault ipnetwork_read_column(const char *texts, size_t texts_length, const uint32_t *offsets,
    size_t offset_count, ipnetwork_ip *IPNETWORK_ALONE networks, size_t network_count, uint8_t *IPNETWORK_ALONE faults,
    size_t fault_count);
IPNETWORK_CHECKED_FAULT ipnetwork_fault ipnetwork_read_with_cause_column(const char *texts, size_t texts_length,
    const uint32_t *offsets, size_t offset_count, ipnetwork_ip *IPNETWORK_ALONE networks, size_t network_count,
    uint8_t *IPNETWORK_ALONE faults, size_t fault_count);
IPNETWORK_CHECKED_FAULT ipnetwork_fault ipnetwork_address_read_column(const char *texts, size_t texts_length, const uint32_t *offsets,
    size_t offset_count, ipnetwork_address *IPNETWORK_ALONE addresses, size_t address_count, uint8_t *IPNETWORK_ALONE faults,
    size_t fault_count);

/* Print the networks of a column in the same layout. The texts, as the call for one network prints each, but without a
 * zero byte, are written one after the other to the front of texts, which has room for room bytes. The offsets at which
 * each text begins and the last one ends are written to the front of offsets, so there is one offset more than
 * networks. *texts_length is the total length of the texts in bytes. The rest of texts and offsets is not written.
 * IPNETWORK_PREFIX if a prefix length is greater than the width; else IPNETWORK_SHORT_BUFFER if *texts_length is
 * greater than room, if offset_count, the number of offsets that there is room for, is not greater than network_count,
 * or if the texts have more than 2147483647 bytes, the maximum of Arrow's offsets: then only *texts_length is
 * written. */
IPNETWORK_CHECKED_AT((7)) ipnetwork_fault ipnetwork_v4_print_column(const ipnetwork_v4 *networks, size_t network_count,
    char *IPNETWORK_ALONE texts, size_t room, uint32_t *IPNETWORK_ALONE offsets, size_t offset_count,
    size_t *IPNETWORK_ALONE texts_length);
IPNETWORK_CHECKED_AT((7)) ipnetwork_fault ipnetwork_v6_print_column(const ipnetwork_v6 *networks, size_t network_count,
    char *IPNETWORK_ALONE texts, size_t room, uint32_t *IPNETWORK_ALONE offsets, size_t offset_count,
    size_t *IPNETWORK_ALONE texts_length);

/* The same for networks of either family, as ipnetwork_canonical prints each, and for addresses, as
 * ipnetwork_address_canonical does. If these calls refuse rows, the fault is that of the first such row,
 * IPNETWORK_NO_FAMILY or IPNETWORK_PREFIX, and nothing is written. */
IPNETWORK_CHECKED_AT((7)) ipnetwork_fault ipnetwork_print_column(const ipnetwork_ip *networks, size_t network_count,
    char *IPNETWORK_ALONE texts, size_t room, uint32_t *IPNETWORK_ALONE offsets, size_t offset_count,
    size_t *IPNETWORK_ALONE texts_length);
IPNETWORK_CHECKED_AT((7)) ipnetwork_fault ipnetwork_address_print_column(const ipnetwork_address *addresses, size_t address_count,
    char *IPNETWORK_ALONE texts, size_t room, uint32_t *IPNETWORK_ALONE offsets, size_t offset_count,
    size_t *IPNETWORK_ALONE texts_length);

#ifdef __cplusplus
}
#endif

#endif
