import {
  indexSize, v4Aggregate, v4Difference, v4IndexContainsColumn, v4IndexFind, v4IndexMake,
  v4Intersection, v4Network, v4PrintColumn, v4RangeToBlocks, v4RangesFind, v4RangesFindColumn,
  v4RangesMake, v4TableIndexMake, v4TableMake, v4Union, v6Aggregate, v6Difference,
  v6IndexContainsColumn, v6IndexFind, v6IndexMake, v6Intersection, v6Network, v6PrintColumn,
  v6RangeToBlocks, v6RangesFind, v6RangesFindColumn, v6RangesMake, v6TableIndexMake, v6TableMake,
  v6Union,
} from './library.mjs';
import { ANSWER, OTHER, bytes, giveBack, take, view } from './memory.mjs';
import { Resident } from './resident.mjs';
import { IpNetworkError, never, wrongType } from './errors.mjs';
import { elementOf, familyOfNetwork, isNetwork, networkAt, putNetwork } from './network.mjs';

/**
 * The properties of the lists of one family: the bytes of an address and of a struct, the bits, and
 * the library's calls.
 */
const FOUR = {
  family: 4, octets: 4, struct: 5, width: 32, textRoom: 20,
  first: v4Network, aggregate: v4Aggregate, union: v4Union, intersection: v4Intersection,
  difference: v4Difference, indexMake: v4IndexMake, indexFind: v4IndexFind,
  indexContainsColumn: v4IndexContainsColumn, printColumn: v4PrintColumn,
  rangeToBlocks: v4RangeToBlocks, tableMake: v4TableMake, tableIndexMake: v4TableIndexMake,
  rangesMake: v4RangesMake,
  rangesFind: v4RangesFind, rangesFindColumn: v4RangesFindColumn,
};
const SIX = {
  family: 6, octets: 16, struct: 17, width: 128, textRoom: 44,
  first: v6Network, aggregate: v6Aggregate, union: v6Union, intersection: v6Intersection,
  difference: v6Difference, indexMake: v6IndexMake, indexFind: v6IndexFind,
  indexContainsColumn: v6IndexContainsColumn, printColumn: v6PrintColumn,
  rangeToBlocks: v6RangeToBlocks, tableMake: v6TableMake, tableIndexMake: v6TableIndexMake,
  rangesMake: v6RangesMake,
  rangesFind: v6RangesFind, rangesFindColumn: v6RangesFindColumn,
};
export const KINDS = [FOUR, SIX];

const SHORT_BUFFER = 4;

/** The packed network with this number. If the list was freed, it is an error. */
export function blockAt({ struct, family }, packed, number) {
  const from = number * struct;
  if (from >= packed.length) throw new IpNetworkError('what is listed was freed', 'freed');
  for (let i = 0; i < struct; i += 1) bytes[OTHER + i] = packed[from + i];
  return networkAt(OTHER, family);
}

/**
 * Networks of one family, packed, as the library keeps them. A list that is searched is also in the
 * memory: an index, by which the library searches it, followed by the networks.
 */
export class Blocks extends Resident {
  constructor(kind, packed) {
    const count = packed.length / kind.struct;
    never(indexSize(count, 0, ANSWER, 0));
    const indexCount = counted();
    super(4 * indexCount + packed.length);
    this.kind = kind;
    this.packed = packed;
    this.count = count;
    this.indexCount = indexCount;
  }

  /** The place of the index. */
  get index() {
    return this.start;
  }

  /** The place of the networks. */
  get place() {
    return this.start + 4 * this.indexCount;
  }

  write(index) {
    const place = index + 4 * this.indexCount;
    bytes.set(this.packed, place);
    never(this.kind.indexMake(place, 0, this.count, 0, index, 0, this.indexCount, 0));
  }

  /** The network with this number. */
  at(index) {
    return blockAt(this.kind, this.packed, index);
  }

  /** Frees its memory. The list has no networks after that. */
  free() {
    this.leave();
    this.packed = new Uint8Array(0);
    this.count = 0;
  }
}

/**
 * Calls a function with a place in the memory that has a copy of these bytes, and frees it
 * afterwards.
 */
export function withCopy(packed, use) {
  return withRoom(packed.length, (place) => {
    bytes.set(packed, place);
    return use(place);
  });
}

/**
 * Calls a function with a place in the memory that has room for this many bytes, and frees it
 * afterwards.
 */
export function withRoom(length, use) {
  const place = take(Math.max(length, 1));
  try {
    return use(place);
  } finally {
    giveBack(place, Math.max(length, 1));
  }
}

/**
 * Calls a function with the place of a list: its own, if it is in the memory, or that of a copy.
 */
function withList(list, use) {
  return list.slot.place !== 0 ? use(list.place) : withCopy(list.packed, use);
}

/** The number that a call has written to ANSWER. */
export const counted = () => view.getUint32(ANSWER, true);

/** The shortest list with the addresses of these packed networks. */
export function aggregated(kind, packed) {
  return withCopy(packed, (place) => {
    never(kind.aggregate(place, 0, packed.length / kind.struct, 0, ANSWER, 0));
    return new Blocks(kind, bytes.slice(place, place + counted() * kind.struct));
  });
}

/** The union, intersection or difference of two shortest lists, by the call with this name. */
export function combined(one, other, name) {
  const { kind } = one;
  return withList(one, (first) => withList(other, (second) => {
    const make = (room) => withRoom(room * kind.struct, (place) => {
      const fault = kind[name](
        first, 0, one.count, 0, second, 0, other.count, 0, place, 0, room, 0, ANSWER, 0,
      );
      if (fault === SHORT_BUFFER) return undefined;
      never(fault);
      return new Blocks(kind, bytes.slice(place, place + counted() * kind.struct));
    });
    return make(one.count + other.count + 64) ?? make(counted());
  }));
}

/** The shortest list of an IPv6 list and of the IPv4-mapped networks of an IPv4 list. */
export function withMapped(fours, sixes) {
  const packed = new Uint8Array(fours.count * SIX.struct);
  for (let at = 0, from = 0; at < packed.length; at += SIX.struct, from += FOUR.struct) {
    packed[at + 10] = packed[at + 11] = 0xff;
    for (let i = 0; i < 4; i += 1) packed[at + 12 + i] = fours.packed[from + i];
    packed[at + 16] = 96 + fours.packed[from + 4];
  }
  return combined(new Blocks(SIX, packed), sixes, 'union');
}

/** Whether a value is an iterable other than a string. */
export const isIterable = (value) => (
  typeof value === 'object' && value !== null && typeof value[Symbol.iterator] === 'function');

/**
 * The networks that an argument lists, as values: an iterable of networks and texts. The error for
 * a wrong text has its index.
 */
export function networksOf(value, name) {
  if (isNetwork(value) || !isIterable(value)) {
    throw wrongType(name, 'an iterable of networks or strings', value);
  }
  const networks = [];
  for (const element of value) {
    networks.push(elementOf(element, name, networks.length));
  }
  return networks;
}

/** The networks of one family among these, packed. */
export function packedOf(networks, kind) {
  const members = networks.filter((network) => familyOfNetwork(network) === kind.family);
  return withRoom(members.length * kind.struct, (place) => {
    members.forEach((network, index) => putNetwork(network, place + index * kind.struct));
    return bytes.slice(place, place + members.length * kind.struct);
  });
}

/** Whether two lists have the same networks in the same order. */
export function sameBlocks(one, other) {
  if (one.count !== other.count) return false;
  const { packed } = one;
  for (let i = 0; i < packed.length; i += 1) if (packed[i] !== other.packed[i]) return false;
  return true;
}

/**
 * The networks of a list, in its order. If the list is freed before the last one, it is an error.
 */
export function* eachOf(list) {
  const { count } = list;
  for (let index = 0; index < count; index += 1) yield list.at(index);
}
