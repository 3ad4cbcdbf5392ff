import { ADDRESS, OTHER, bytes } from './memory.mjs';
import { IpNetworkError, never, wrongType } from './errors.mjs';
import { flagOf, invalidOf } from './arguments.mjs';
import { familyOf, putAddress } from './address.mjs';
import {
  elementOf, familyOfNetwork, isNetwork, memberOf, networkOf, putNetwork,
} from './network.mjs';
import { KINDS, blockAt, isIterable, packedOf, withCopy } from './blocks.mjs';
import { eachRow, rowsOfAddresses, withNulls } from './columns.mjs';
import { tableOf } from './ranges.mjs';
import { INSPECT, SENT, shownList } from './shown.mjs';
import { textAt } from './texts.mjs';

const NONE = Symbol('no block');

/**
 * The blocks of a family with their values, in ascending order; equal ones are in the order of the
 * pairs.
 */
class FamilyTable {
  #places;

  constructor(kind, pairs) {
    const given = pairs.filter(([network]) => familyOfNetwork(network) === kind.family);
    const { blocks, numbers, ranges } = tableOf(
      kind, packedOf(given.map(([network]) => network), kind),
    );
    this.kind = kind;
    this.blocks = blocks;
    this.values = Array.from(numbers, (number) => given[number][1]);
    this.ranges = ranges;
  }

  /** The block at this place. */
  at(place) {
    return blockAt(this.kind, this.blocks, place);
  }

  /**
   * The places of the blocks, by the packed blocks as texts, in their order; for equal blocks, the
   * last place.
   */
  get places() {
    this.#places ??= this.#placed();
    return this.#places;
  }

  #placed() {
    const { struct } = this.kind;
    return withCopy(this.blocks, (start) => {
      const places = new Map();
      this.values.forEach((_, place) => places.set(textAt(start + struct * place, struct), place));
      return places;
    });
  }

  /** The place of the block with the members of a network, or undefined. */
  placeOf(network) {
    const { octets, struct, first } = this.kind;
    putNetwork(network, OTHER);
    never(first(OTHER, 0, ADDRESS, 0));
    bytes[ADDRESS + octets] = bytes[OTHER + octets];
    return this.places.get(textAt(ADDRESS, struct));
  }

  free() {
    this.ranges.free();
    this.blocks = new Uint8Array(0);
  }
}

/**
 * Networks with values, searched for the longest network that has an address. A table does not
 * change.
 */
export class PrefixTable {
  sent = SENT;
  #tables;
  #mapped;
  #freed = false;

  constructor(entries = [], options = undefined) {
    if (isNetwork(entries) || !isIterable(entries)) {
      throw wrongType('entries', 'an iterable of pairs of a network and a value', entries);
    }
    this.#mapped = flagOf(options, 'mapped');
    const pairs = [];
    for (const entry of entries) pairs.push(pairOf(entry, pairs.length));
    this.#tables = KINDS.map((kind) => new FamilyTable(kind, pairs));
    Object.freeze(this);
  }

  lookup(address) {
    const member = memberOf(address);
    const first = this.#mapped ? member.unmapped : member;
    return this.#longest(first) ?? (first === member ? undefined : this.#longest(member));
  }

  lookupColumn(addresses, options = undefined) {
    const invalid = invalidOf(options);
    const rows = rowsOfAddresses(addresses, invalid);
    const tables = this.#used();
    const found = tables.map(({ kind, ranges, values }) => (
      ranges.findColumn(rows.packedOf(kind), values, undefined)
    ));
    if (this.#mapped) {
      const { packed, places } = rows.mapped;
      const [{ ranges, values }] = tables;
      ranges.findColumn(packed, values, NONE).forEach((value, at) => {
        if (value !== NONE) found[1][places[at]] = value;
      });
    }
    const each = eachRow(rows, found, Array, undefined);
    return invalid === 'null' ? withNulls(rows, each) : each;
  }

  get(network) {
    const [table, place] = this.#exactly(network);
    return table.values[place];
  }

  has(network) {
    return this.#exactly(network)[1] !== undefined;
  }

  get mapped() {
    return this.#mapped;
  }

  get size() {
    return this.#used().reduce((sum, table) => sum + table.places.size, 0);
  }

  * entries() {
    for (const which of [0, 1]) {
      const table = this.#used()[which];
      for (const place of table.places.values()) yield [table.at(place), table.values[place]];
    }
  }

  [Symbol.iterator]() {
    return this.entries();
  }

  toJSON() {
    return Array.from(this.entries(), ([network, value]) => [String(network), value]);
  }

  [INSPECT](depth, options, inspect) {
    if (this.#freed) return `${this.constructor.name}(freed)`;
    const texts = function* texts(entries) {
      for (const [network, value] of entries) yield `${network} => ${inspect(value, options)}`;
    };
    return shownList(this, this.size, texts(this.entries()));
  }

  free() {
    this.#freed = true;
    this.#tables.forEach((table) => table.free());
  }

  #used() {
    if (this.#freed) throw new IpNetworkError('this PrefixTable is freed', 'freed');
    return this.#tables;
  }

  #longest(member) {
    const table = this.#used()[familyOf(member) === 4 ? 0 : 1];
    putAddress(member, ADDRESS);
    const place = table.ranges.find(ADDRESS);
    return place < 0 ? undefined : { network: table.at(place), value: table.values[place] };
  }

  #exactly(network) {
    const exact = networkOf(network, 'network');
    const table = this.#used()[familyOfNetwork(exact) === 4 ? 0 : 1];
    return [table, table.placeOf(exact)];
  }
}

/** The network and the value of an entry. */
function pairOf(entry, index) {
  if (entry === null || typeof entry !== 'object') {
    throw wrongType(`entries[${index}]`, 'a pair of a network and a value', entry);
  }
  const [network, value] = [entry[0], entry[1]];
  return [elementOf(network, 'entries', index), value];
}
