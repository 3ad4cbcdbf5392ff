/**
 * IP networks in CIDR notation, read, printed and queried.
 *
 * A network keeps the host bits of its address. Its members are the addresses that share the first
 * bits of its address, as many as the prefix length says. Values do not change. Two of them are
 * equal exactly if their texts (`toString`) are, so use the text as the key of a `Map`.
 *
 * `structuredClone` and `postMessage` refuse values: send the text, or the result of `toJSON`.
 *
 * An argument of a wrong type is a `TypeError` that names the argument. A text that names no
 * network, or an invalid prefix length, is an `IpNetworkError` with the cause as its `code`.
 */

/** The version of the library that is in the package, such as `0.2.0`. */
export const version: string;
/**
 * Which build of the library that is: `proved`, or `plain Rust, made of proved sources`, which is
 * tested. What `wasm-opt` made of it for this package is tested in either case, and not proved.
 */
export const build: 'proved' | 'plain Rust, made of proved sources';

/** Why something is refused: see {@link IpNetworkError.code}. */
export type IpNetworkErrorCode = 'format' | 'address' | 'prefix' | 'range' | 'freed';

/**
 * The error for a text that names no network or address, an invalid prefix length or range, or a
 * freed object.
 */
export class IpNetworkError extends Error {
  readonly name: 'IpNetworkError';
  /**
   * The cause. `format`: the text has two or more slashes; `address`: the part before the slash, or
   * the whole text, is not an address; `prefix`: the part after the slash, or a number, is not a
   * prefix length; `range`: the first address of a range comes after the last one, or they are of
   * different families; `freed`: the set or the table was freed.
   */
  readonly code: IpNetworkErrorCode;
  /** The text that was refused, if it was a text. */
  readonly input?: string;
  /** Its index, if it was in a list. */
  readonly index?: number;
}

/** An address of either family. */
export abstract class IpAddress {
  protected constructor();
  /**
   * The address that a text names, without a prefix length or a zone. IpNetworkError if it names
   * none.
   */
  static parse(text: string): Ipv4Address | Ipv6Address;
  /** The same, but undefined if the text names none. */
  static tryParse(text: string): Ipv4Address | Ipv6Address | undefined;
  /**
   * The address of these 4 or 16 octets, the highest first. RangeError if there are neither 4 nor
   * 16.
   */
  static fromOctets(octets: Uint8Array): Ipv4Address | Ipv6Address;
  /** The order of two addresses, for `sort`. */
  static compare(one: IpAddress, other: IpAddress): -1 | 0 | 1;
  /** 4 or 6. */
  readonly family: 4 | 6;
  /** A copy of the octets, 4 or 16, the highest first. */
  readonly octets: Uint8Array;
  /**
   * The IPv4 address in an IPv4-mapped one, of ::ffff:0:0/96 (RFC 4291, section 2.5.5.2); any other
   * address as it is.
   */
  readonly unmapped: Ipv4Address | Ipv6Address;
  /**
   * -1 if this address comes before the other, 1 if after, 0 if they are equal. IPv4 comes before
   * IPv6.
   */
  compare(other: IpAddress): -1 | 0 | 1;
  /**
   * Whether both are the same address. An IPv4-mapped IPv6 address is not equal to an IPv4 address.
   */
  equals(other: IpAddress): boolean;
  /**
   * The canonical text. IPv6 addresses are printed as RFC 5952, section 4, says, and IPv4-mapped
   * ones end in dotted decimal.
   */
  toString(): string;
  /** The same. */
  toJSON(): string;
}

/** An IPv4 address. */
export class Ipv4Address extends IpAddress {
  /** The address with this number, from 0 to 4294967295. RangeError for any other number. */
  constructor(number: number);
  static parse(text: string): Ipv4Address;
  static tryParse(text: string): Ipv4Address | undefined;
  static fromOctets(octets: Uint8Array): Ipv4Address;
  readonly family: 4;
  readonly unmapped: Ipv4Address;
  /** The address as a number. */
  readonly number: number;
}

/** An IPv6 address. */
export class Ipv6Address extends IpAddress {
  /** The address with this number, from 0n to 2n ** 128n - 1n. RangeError for any other number. */
  constructor(number: bigint);
  static parse(text: string): Ipv6Address;
  static tryParse(text: string): Ipv6Address | undefined;
  static fromOctets(octets: Uint8Array): Ipv6Address;
  readonly family: 6;
  /** The address as a number. */
  readonly number: bigint;
}

/** How the addresses of one network relate to those of another. */
export type Relation = 'same' | 'inside' | 'around' | 'apart';

/** A network of either family. It is also an iterable of its addresses, in ascending order. */
export abstract class IpNetwork<A extends IpAddress = Ipv4Address | Ipv6Address>
  implements Iterable<A> {
  protected constructor();
  /**
   * The network that a text names: an address, and after a `/` a prefix length or, for IPv4, a
   * mask. Without a `/`, it is the network of the single address. IpNetworkError with the cause if
   * the text names none.
   */
  static parse(text: string): Ipv4Network | Ipv6Network;
  /** The same, but undefined if the text names none. */
  static tryParse(text: string): Ipv4Network | Ipv6Network | undefined;
  /** The order of two networks, for `sort`. */
  static compare(one: IpNetwork, other: IpNetwork): -1 | 0 | 1;
  /** 4 or 6. */
  readonly family: 4 | 6;
  /** The address, host bits kept. */
  readonly address: A;
  /** The prefix length. */
  readonly prefix: number;
  /** The least member: the address with its host bits cleared. */
  readonly first: A;
  /**
   * The greatest member: the address with its host bits set. For IPv4 this is the broadcast
   * address.
   */
  readonly last: A;
  /** The mask. */
  readonly mask: A;
  /** The number of members: two to the power of the number of host bits. */
  readonly size: bigint;
  /** The network with the same members and no host bits. */
  readonly block: IpNetwork<A>;
  /**
   * Whether an address is a member. An address of the other family is not. IpNetworkError for a
   * text that names no address.
   */
  contains(address: IpAddress | string): boolean;
  /** Whether each member of this network is a member of the other. */
  isSubnetOf(other: IpNetwork | string): boolean;
  /** Whether each member of the other network is a member of this one. */
  isSupernetOf(other: IpNetwork | string): boolean;
  /** Whether some address is a member of both networks. */
  overlaps(other: IpNetwork | string): boolean;
  /**
   * Whether both have the same members, this network is inside the other or around it, or they
   * share none.
   */
  relationTo(other: IpNetwork | string): Relation;
  /**
   * -1, 0 or 1: by address, host bits included, and then by prefix length. IPv4 comes before IPv6.
   */
  compare(other: IpNetwork): -1 | 0 | 1;
  /** Whether both have the same address, host bits included, and the same prefix length. */
  equals(other: IpNetwork): boolean;
  /** The member with this number, counted from 0; undefined past the last. */
  nth(number: number | bigint): A | undefined;
  /**
   * The blocks of this prefix length within the network, in ascending order. IpNetworkError if it
   * is less than the network's own, or not a prefix length of the family.
   */
  subnets(prefix: number): IterableIterator<IpNetwork<A>>;
  /** The block with this number, counted from 0; undefined past the last. */
  subnetAt(prefix: number, number: number | bigint): IpNetwork<A> | undefined;
  [Symbol.iterator](): IterableIterator<A>;
  /**
   * The canonical text: the canonical text of the address, `/` and the prefix length in decimal.
   */
  toString(): string;
  /** The same. */
  toJSON(): string;
}

/** An IPv4 network. */
export class Ipv4Network extends IpNetwork<Ipv4Address> {
  /** The network of this address, host bits kept, and this prefix length, from 0 to 32. */
  constructor(address: Ipv4Address | string, prefix: number);
  static parse(text: string): Ipv4Network;
  static tryParse(text: string): Ipv4Network | undefined;
  readonly family: 4;
  readonly block: Ipv4Network;
  subnets(prefix: number): IterableIterator<Ipv4Network>;
  subnetAt(prefix: number, number: number | bigint): Ipv4Network | undefined;
}

/** An IPv6 network. */
export class Ipv6Network extends IpNetwork<Ipv6Address> {
  /** The network of this address, host bits kept, and this prefix length, from 0 to 128. */
  constructor(address: Ipv6Address | string, prefix: number);
  static parse(text: string): Ipv6Network;
  static tryParse(text: string): Ipv6Network | undefined;
  readonly family: 6;
  readonly block: Ipv6Network;
  subnets(prefix: number): IterableIterator<Ipv6Network>;
  subnetAt(prefix: number, number: number | bigint): Ipv6Network | undefined;
}

/** An option of sets and tables. An option of any other name is a TypeError. */
export interface Mapped {
  /**
   * With `{ mapped: true }`, what is said of either form counts: an IPv4-mapped IPv6 address is a
   * member if the IPv4 address, or the IPv6 address itself, is one; its longest network is
   * that of the IPv4 address, and if there is none that of the IPv6 address; and so for a network
   * within ::ffff:0:0/96.
   *
   * Operations and comparisons count both forms, and of two sets both are taken to have the option
   * if one has it; `equals` is about the networks alone. An IPv4-mapped address is a member of a
   * difference or a complement as long as its IPv4 address is.
   *
   * A server that listens on IPv6 sees its IPv4 peers as such addresses, as ::ffff:10.1.9.32. The
   * default is false.
   */
  readonly mapped?: boolean;
}

/** An option of `AddressColumn.read`. An option of any other name is a TypeError. */
export interface Unmapped {
  /**
   * Whether each IPv4-mapped address is replaced by the IPv4 address in it, which `unmapped` of an
   * address returns. What a list says of the IPv6 address is then not asked: to ask for both, leave
   * this out, and make the set or the table with `{ mapped: true }`. The default is false.
   */
  readonly unmapped?: boolean;
}

/** An option of questions about a column. An option of any other name is a TypeError. */
export interface Invalid<T extends 'raise' | false | 'null' = 'raise' | false> {
  /**
   * What is done if the text of a row names no address. By default, `'raise'`, it is an
   * IpNetworkError with the text as its `input` and the row as its `index`; with false, the row
   * counts as one whose address no network has; with `'null'`, its answer is null.
   */
  readonly invalid?: T;
}

/**
 * A column of texts read as addresses in a few calls. It is also an iterable of the results of
 * `at`.
 */
export class AddressColumn implements Iterable<Ipv4Address | Ipv6Address | undefined> {
  private constructor();
  /** Reads a column. A text that names no address does not stop the call. */
  static read(texts: readonly string[], options?: Unmapped): AddressColumn;
  /** The number of rows. */
  readonly length: number;
  /** How many of them name no address. */
  readonly refused: number;
  /** The address of a row; undefined if its text names none, or if there is no such row. */
  at(row: number): Ipv4Address | Ipv6Address | undefined;
  /** Why the text of a row names none; undefined if it names one. */
  codeAt(row: number): 'address' | undefined;
  [Symbol.iterator](): IterableIterator<Ipv4Address | Ipv6Address | undefined>;
  /** The canonical texts; null for a row without an address. */
  toJSON(): (string | null)[];
}

/**
 * A column of texts read as networks in a few calls. It is also an iterable of the results of `at`.
 */
export class NetworkColumn implements Iterable<Ipv4Network | Ipv6Network | undefined> {
  private constructor();
  /** Reads a column. A text that names no network does not stop the call. */
  static read(texts: readonly string[]): NetworkColumn;
  /** The number of rows. */
  readonly length: number;
  /** How many of them name no network. */
  readonly refused: number;
  /** The network of a row; undefined if its text names none, or if there is no such row. */
  at(row: number): Ipv4Network | Ipv6Network | undefined;
  /** Why the text of a row names none; undefined if it names one. */
  codeAt(row: number): 'format' | 'address' | 'prefix' | undefined;
  /** The canonical texts; undefined for a row without a network. */
  toStrings(): (string | undefined)[];
  [Symbol.iterator](): IterableIterator<Ipv4Network | Ipv6Network | undefined>;
  /** The canonical texts; null for a row without a network. */
  toJSON(): (string | null)[];
}

/**
 * Networks as a list, or as a column in which each text names one. A text that names none is an
 * IpNetworkError with its index.
 */
export type Networks = (Iterable<IpNetwork | string> & object) | NetworkColumn;

/** The addresses of one family from the first to the last, both included. */
export type AddressRange =
  { first: Ipv4Address; last: Ipv4Address } | { first: Ipv6Address; last: Ipv6Address };

/**
 * A set of addresses of both families, kept as the fewest networks with exactly these addresses. It
 * is also an iterable of these networks.
 */
export class AddressSet implements Iterable<Ipv4Network | Ipv6Network> {
  /** The set of the addresses of networks, in any order and with or without host bits. */
  constructor(networks?: Networks, options?: Mapped);
  /** Whether the option was given for this set, or for a set that it is made from. */
  readonly mapped: boolean;
  /** Whether an address is in the set, by a binary search. */
  contains(address: IpAddress | string): boolean;
  /** Whether each member of a network is in the set; in one of its forms, if the set is mapped. */
  covers(network: IpNetwork | string): boolean;
  /** For each row 1 if its address is in the set, else 0. A row must have an address. */
  containsColumn(addresses: AddressColumn | readonly string[], options?: Invalid): Uint8Array;
  /** The same, with null for a row without an address. */
  containsColumn(
    addresses: AddressColumn | readonly string[], options: Invalid<'null'>,
  ): (0 | 1 | null)[];
  /** The addresses that are in at least one of the two sets. */
  union(other: AddressSet): AddressSet;
  /** The addresses that are in both sets. */
  intersection(other: AddressSet): AddressSet;
  /** The addresses that are in this set and not in the other. */
  difference(other: AddressSet): AddressSet;
  /** The addresses that are in exactly one of the two sets. */
  symmetricDifference(other: AddressSet): AddressSet;
  /** All addresses of both families that are not in the set. */
  complement(): AddressSet;
  /** Whether the networks of both have the same addresses, whatever the options are. */
  equals(other: AddressSet): boolean;
  /** The number of addresses. */
  readonly size: bigint;
  /** The number of its networks. */
  readonly blockCount: number;
  /** The fewest networks with its addresses, in ascending order, IPv4 first. */
  blocks(): IterableIterator<Ipv4Network | Ipv6Network>;
  [Symbol.iterator](): IterableIterator<Ipv4Network | Ipv6Network>;
  /** The fewest ranges with its addresses, both ends included, in ascending order, IPv4 first. */
  ranges(): IterableIterator<AddressRange>;
  /** The texts of its networks. */
  toJSON(): string[];
  /**
   * Frees its memory now, and not only when the set is collected. After that, no call but this one
   * may be made.
   */
  free(): void;
}

/** Networks with values, searched for the longest network that has an address. */
export class PrefixTable<V> implements Iterable<[Ipv4Network | Ipv6Network, V]> {
  /**
   * A table of pairs. If the networks of several pairs have the same members, the last pair counts.
   */
  constructor(entries?: Iterable<readonly [IpNetwork | string, V]>, options?: Mapped);
  /** Whether the option was given for this table. */
  readonly mapped: boolean;
  /**
   * The longest network that has an address, without host bits, and its value; undefined if none
   * has it.
   */
  lookup(address: IpAddress | string): { network: Ipv4Network | Ipv6Network; value: V } | undefined;
  /**
   * For each row the value that `lookup` finds for its address; undefined if it finds none. A row
   * must have an address.
   */
  lookupColumn(
    addresses: AddressColumn | readonly string[], options?: Invalid,
  ): (V | undefined)[];
  /** The same, with null for a row without an address. */
  lookupColumn(
    addresses: AddressColumn | readonly string[], options: Invalid<'null'>,
  ): (V | null | undefined)[];
  /** The value of the network with exactly these members. */
  get(network: IpNetwork | string): V | undefined;
  /** Whether the table has the network with exactly these members. */
  has(network: IpNetwork | string): boolean;
  /** The number of networks. */
  readonly size: number;
  /** The networks, without host bits, with their values, in ascending order, IPv4 first. */
  entries(): IterableIterator<[Ipv4Network | Ipv6Network, V]>;
  [Symbol.iterator](): IterableIterator<[Ipv4Network | Ipv6Network, V]>;
  /** The texts of the networks with their values. */
  toJSON(): [string, V][];
  /**
   * Frees its memory now, and not only when the table is collected. After that, no call but this
   * one may be made.
   */
  free(): void;
}

/** The fewest networks with the addresses of these networks, in ascending order, IPv4 first. */
export function aggregate(networks: Networks): (Ipv4Network | Ipv6Network)[];

/** The fewest networks with the addresses from first to last, both included, in ascending order. */
export function summarizeRange(
  first: IpAddress | string, last: IpAddress | string,
): (Ipv4Network | Ipv6Network)[];
