import { inflated } from './inflate.mjs';
import { instanceOf } from './instance.mjs';
/* Written by build.mjs: the module, compressed and spelled as text, and its length in bytes. */
import { MODULE, MODULE_LENGTH } from './module.mjs';
import { unspelled } from './spelling.mjs';

/** The library for C, compiled for WebAssembly: its functions and its memory. */
export const library = instanceOf(inflated(unspelled(MODULE), MODULE_LENGTH));

/** The bytes of a size_t in its memory: 8 in the proved module, and in that of plain Rust 4. */
export const SIZE = library.size_t_bytes ? library.size_t_bytes.value : 8;

/* Its functions, which c/ipnetwork.h describes. Each pointer and each size is two numbers: the low
 * 32 bits and 0. */
export const {
  ipnetwork_build: buildOfLibrary,
  ipnetwork_v4_read: v4Read,
  ipnetwork_v6_read: v6Read,
  ipnetwork_read_with_cause: readWithCause,
  ipnetwork_address_read: addressRead,
  ipnetwork_v6_unmapped: v6Unmapped,
  ipnetwork_v4_canonical: v4Canonical,
  ipnetwork_v6_canonical: v6Canonical,
  ipnetwork_address_canonical: addressCanonical,
  ipnetwork_v4_network: v4Network,
  ipnetwork_v6_network: v6Network,
  ipnetwork_v4_broadcast: v4Broadcast,
  ipnetwork_v6_broadcast: v6Broadcast,
  ipnetwork_v4_mask: v4Mask,
  ipnetwork_v6_mask: v6Mask,
  ipnetwork_v4_size: v4Size,
  ipnetwork_v6_size: v6Size,
  ipnetwork_v4_nth: v4Nth,
  ipnetwork_v6_nth: v6Nth,
  ipnetwork_v4_is_subnet_of: v4IsSubnetOf,
  ipnetwork_v6_is_subnet_of: v6IsSubnetOf,
  ipnetwork_v4_overlaps: v4Overlaps,
  ipnetwork_v6_overlaps: v6Overlaps,
  ipnetwork_v4_compare: v4Compare,
  ipnetwork_v6_compare: v6Compare,
  ipnetwork_v4_subnet_at: v4SubnetAt,
  ipnetwork_v6_subnet_at: v6SubnetAt,
  ipnetwork_v4_range_to_blocks: v4RangeToBlocks,
  ipnetwork_v6_range_to_blocks: v6RangeToBlocks,
  ipnetwork_v4_aggregate: v4Aggregate,
  ipnetwork_v6_aggregate: v6Aggregate,
  ipnetwork_v4_union: v4Union,
  ipnetwork_v6_union: v6Union,
  ipnetwork_v4_intersection: v4Intersection,
  ipnetwork_v6_intersection: v6Intersection,
  ipnetwork_v4_difference: v4Difference,
  ipnetwork_v6_difference: v6Difference,
  ipnetwork_read_with_cause_column: readWithCauseColumn,
  ipnetwork_address_read_column: addressReadColumn,
  ipnetwork_v4_print_column: v4PrintColumn,
  ipnetwork_v6_print_column: v6PrintColumn,
  ipnetwork_index_size: indexSize,
  ipnetwork_v4_index_make: v4IndexMake,
  ipnetwork_v6_index_make: v6IndexMake,
  ipnetwork_v4_table_index_make: v4TableIndexMake,
  ipnetwork_v6_table_index_make: v6TableIndexMake,
  ipnetwork_v4_index_contains: v4IndexContains,
  ipnetwork_v6_index_contains: v6IndexContains,
  ipnetwork_v4_index_contains_column: v4IndexContainsColumn,
  ipnetwork_v6_index_contains_column: v6IndexContainsColumn,
  ipnetwork_v4_index_find: v4IndexFind,
  ipnetwork_v6_index_find: v6IndexFind,
  ipnetwork_v4_table_make: v4TableMake,
  ipnetwork_v6_table_make: v6TableMake,
  ipnetwork_v4_ranges_make: v4RangesMake,
  ipnetwork_v6_ranges_make: v6RangesMake,
  ipnetwork_v4_ranges_find: v4RangesFind,
  ipnetwork_v6_ranges_find: v6RangesFind,
  ipnetwork_v4_ranges_find_column: v4RangesFindColumn,
  ipnetwork_v6_ranges_find_column: v6RangesFindColumn,
} = library;
