import { v4IndexContains, v4IsSubnetOf, v6IndexContains, v6IsSubnetOf } from './library.mjs';
import { ADDRESS, ANSWER, NUMBER, OTHER, bitsOf, bytes, view } from './memory.mjs';
import { IpNetworkError, networkError, never, wrongType } from './errors.mjs';
import { flagOf, invalidOf } from './arguments.mjs';
import { MADE, addressOf, familyOf, putAddress } from './address.mjs';
import { familyOfNetwork, memberOf, networkAt, networkOf, putNetwork } from './network.mjs';
import {
  Blocks, KINDS, aggregated, combined, eachOf, networksOf, packedOf, sameBlocks, withMapped,
  withRoom,
} from './blocks.mjs';
import {
  eachChunkOf, eachRow, rowsOfAddresses, rowsOfNetworks, withNulls,
} from './columns.mjs';
import { INSPECT, SENT, shownList } from './shown.mjs';

/**
 * For each family the packed networks that an argument lists: an iterable, or a column in which
 * each text names one.
 */
export function packedNetworks(value, name) {
  const rows = rowsOfNetworks(value);
  if (rows === undefined) {
    const networks = networksOf(value, name);
    return KINDS.map((kind) => packedOf(networks, kind));
  }
  if (rows.refused > 0) {
    const { fault, text, row } = rows.firstRefused;
    throw networkError(fault, text, 'IP network', row);
  }
  return KINDS.map((kind) => rows.packedOf(kind));
}

/* A function with access to the class: the lists of a set, or undefined for any other value. */
let listsOf;

/**
 * A set of addresses of both families, kept as the fewest networks with exactly these addresses. It
 * does not change.
 */
export class AddressSet {
  sent = SENT;
  #lists;
  #both;
  #mapped;
  #freed = false;

  static {
    listsOf = (value) => (
      typeof value === 'object' && value !== null && #lists in value ? value.#used() : undefined
    );
  }

  constructor(networks = [], options = undefined, lists = undefined) {
    if (networks === MADE) {
      this.#mapped = options;
      this.#lists = lists;
    } else {
      this.#mapped = flagOf(options, 'mapped');
      const packed = packedNetworks(networks, 'networks');
      this.#lists = KINDS.map((kind, which) => aggregated(kind, packed[which]));
    }
    Object.freeze(this);
  }

  contains(address) {
    const member = memberOf(address);
    const first = this.#mapped ? member.unmapped : member;
    return this.#has(first) || (first !== member && this.#has(member));
  }

  covers(network) {
    const inner = networkOf(network, 'network');
    const { index, indexCount, place, count, kind } = this.#listOf(familyOfNetwork(inner));
    putNetwork(inner, OTHER);
    /* The set has the network's addresses if one of its blocks has them, because no two blocks are
     * the halves of one. */
    const found = kind.indexFind(place, 0, count, 0, index, 0, indexCount, 0, OTHER, 0, NUMBER, 0);
    if (found !== 0) return false;
    const block = place + view.getUint32(NUMBER, true) * kind.struct;
    never((kind.family === 4 ? v4IsSubnetOf : v6IsSubnetOf)(OTHER, 0, block, 0, ANSWER, 0));
    return bytes[ANSWER] === 1;
  }

  containsColumn(addresses, options = undefined) {
    const invalid = invalidOf(options);
    const rows = rowsOfAddresses(addresses, invalid);
    const lists = this.#used();
    const found = lists.map((list) => answersOf(list, rows.packedOf(list.kind)));
    if (this.#mapped) {
      const { packed, places } = rows.mapped;
      answersOf(lists[0], packed).forEach((answer, at) => { found[1][places[at]] |= answer; });
    }
    const answers = eachRow(rows, found, Uint8Array, 0);
    return invalid === 'null' ? withNulls(rows, answers) : answers;
  }

  union(other) {
    return this.#combined(other, 'union');
  }

  intersection(other) {
    return this.#combined(other, 'intersection');
  }

  difference(other) {
    return this.#combined(other, 'difference');
  }

  symmetricDifference(other) {
    return this.difference(other).union(other.difference(this));
  }

  complement() {
    return new AddressSet(MADE, this.#mapped, KINDS.map((kind) => {
      const all = new Blocks(kind, new Uint8Array(kind.struct));
      return combined(all, this.#listOf(kind.family), 'difference');
    }));
  }

  equals(other) {
    const lists = requireLists(other);
    return this.#used().every((list, which) => sameBlocks(list, lists[which]));
  }

  get mapped() {
    return this.#mapped;
  }

  get size() {
    return this.#used().reduce((sum, list) => sum + sizeOf(list), 0n);
  }

  get blockCount() {
    return this.#used().reduce((sum, list) => sum + list.count, 0);
  }

  * blocks() {
    for (const which of [0, 1]) yield* eachOf(this.#used()[which]);
  }

  * ranges() {
    let range;
    for (const { first, last } of this.blocks()) {
      if (range !== undefined && isNext(range.last, first)) {
        range = { first: range.first, last };
      } else {
        if (range !== undefined) yield range;
        range = { first, last };
      }
    }
    if (range !== undefined) yield range;
  }

  [Symbol.iterator]() {
    return this.blocks();
  }

  toJSON() {
    return Array.from(this.blocks(), String);
  }

  [INSPECT]() {
    if (this.#freed) return `${this.constructor.name}(freed)`;
    return shownList(this, this.blockCount, this.blocks());
  }

  free() {
    this.#freed = true;
    this.#lists.forEach((list) => list.free());
    this.#both?.free();
  }

  #used() {
    if (this.#freed) throw new IpNetworkError('this AddressSet is freed', 'freed');
    return this.#lists;
  }

  #has(member) {
    const list = this.#used()[familyOf(member) === 4 ? 0 : 1];
    const { index, indexCount, place, count } = list;
    putAddress(member, ADDRESS);
    never(list.kind.family === 4
      ? v4IndexContains(place, 0, count, 0, index, 0, indexCount, 0, ADDRESS, 0, ANSWER, 0)
      : v6IndexContains(place, 0, count, 0, index, 0, indexCount, 0, ADDRESS, 0, ANSWER, 0));
    return bytes[ANSWER] === 1;
  }

  /** The list of a family; for IPv6, if `mapped`, with the IPv4-mapped addresses of IPv4. */
  #listOf(family, mapped = this.#mapped) {
    const [fours, sixes] = this.#used();
    if (family === 4) return fours;
    if (!mapped) return sixes;
    this.#both ??= withMapped(fours, sixes);
    return this.#both;
  }

  #combined(other, name) {
    const [, otherSixes] = requireLists(other);
    const mapped = this.#mapped || other.#mapped;
    /* Whether the IPv6 addresses of the other set are those that it has in either form. */
    const either = mapped && name !== 'union';
    const lists = this.#used().map(
      (list) => combined(list, other.#listOf(list.kind.family, either), name),
    );
    if (either && name === 'intersection') {
      const turned = combined(this.#listOf(6, true), otherSixes, name);
      lists[1] = combined(lists[1], turned, 'union');
    }
    return new AddressSet(MADE, mapped, lists);
  }
}

/** Whether an address comes right after another one of its family. */
const isNext = (one, other) => (
  familyOf(one) === familyOf(other) && BigInt(one.number) + 1n === BigInt(other.number)
);

function requireLists(value) {
  const lists = listsOf(value);
  if (lists === undefined) throw wrongType('other', 'an AddressSet', value);
  return lists;
}

/** For each of these packed addresses of a list's family, 1 or 0. */
function answersOf(list, packed) {
  const { kind } = list;
  const answers = new Uint8Array(packed.length / kind.octets);
  if (answers.length === 0) return answers;
  const { index, indexCount, place, count } = list;
  eachChunkOf(packed, kind, (addresses, length, first) => withRoom(2 * length, (room) => {
    never(kind.indexContainsColumn(
      place, 0, count, 0, index, 0, indexCount, 0, addresses, 0, length, 0,
      room + length, 0, length, 0, room, 0, length, 0,
    ));
    never(bitsOf(room, length));
    answers.set(bytes.subarray(room + length, room + 2 * length), first);
  }));
  return answers;
}

/** The number of addresses of a list. */
function sizeOf(list) {
  const { struct, width } = list.kind;
  const ofPrefix = new Array(width + 1).fill(0);
  for (let at = struct - 1; at < list.packed.length; at += struct) ofPrefix[list.packed[at]] += 1;
  return ofPrefix.reduce(
    (sum, count, prefix) => sum + (BigInt(count) << BigInt(width - prefix)), 0n,
  );
}

/** The fewest networks with the addresses of these networks, in ascending order, IPv4 first. */
export function aggregate(networks) {
  const packed = packedNetworks(networks, 'networks');
  return KINDS.flatMap((kind, which) => [...eachOf(aggregated(kind, packed[which]))]);
}

/** The fewest networks with the addresses from first to last, both included, in ascending order. */
export function summarizeRange(first, last) {
  const from = addressOf(first, 'first');
  const to = addressOf(last, 'last');
  const family = familyOf(from);
  if (familyOf(to) !== family) {
    throw new IpNetworkError('first and last are of different families', 'range');
  }
  const kind = KINDS[family === 4 ? 0 : 1];
  const most = 2 * kind.width - 2;
  return withRoom(most * kind.struct, (place) => {
    putAddress(from, ADDRESS);
    putAddress(to, OTHER);
    const fault = kind.rangeToBlocks(ADDRESS, 0, OTHER, 0, place, 0, most, 0, ANSWER, 0);
    if (fault !== 0) throw new IpNetworkError(`first, ${from}, comes after last, ${to}`, 'range');
    return Array.from(
      { length: view.getUint32(ANSWER, true) },
      (_, i) => networkAt(place + i * kind.struct, family),
    );
  });
}
