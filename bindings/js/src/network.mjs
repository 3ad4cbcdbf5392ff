import {
  readWithCause, v4Broadcast, v4Canonical, v4Compare, v4IsSubnetOf, v4Mask, v4Network, v4Nth,
  v4Overlaps, v4Read, v4Size, v4SubnetAt, v6Broadcast, v6Canonical, v6Compare, v6IsSubnetOf, v6Mask,
  v6Network, v6Nth, v6Overlaps, v6Read, v6Size, v6SubnetAt,
} from './library.mjs';
import {
  ADDRESS, ANSWER, LITTLE, NETWORK, NUMBER, OTHER, bytes, view, words,
} from './memory.mjs';
import { networkError, networkGiven, never, prefixError, textOf, wrongType } from './errors.mjs';
import { putNumber, requireParts, wholeNumber } from './arguments.mjs';
import { askText, printed } from './texts.mjs';
import {
  IpAddress, MADE, addressAt, addressOf, isAddress, liesInFour, liesInSix,
} from './address.mjs';
import { INSPECT, SENT } from './shown.mjs';

/* Functions with access to the fields of the class. They are constant after the class is defined,
 * so that an engine need not check what they are. */
const ofNetwork = { __proto__: null };

/**
 * A network of either family: an address, host bits kept, and a prefix length. It does not change.
 */
export class IpNetwork {
  sent = SENT;
  /* Numbers from the start, so that an engine need not check what they are. */
  #family = 0;
  /* The octets of the address, four in a number, as they are in the memory. */
  #a = 0;
  #b = 0;
  #c = 0;
  #d = 0;
  #prefix = 0;

  static {
    ofNetwork.familyOfNetwork = (network) => network.#family;
    ofNetwork.isNetwork = (value) => (
      typeof value === 'object' && value !== null && #family in value
    );
    /* Each writes the struct to NETWORK. There is one for each family, so that an engine sees
     * objects of only one shape in it. */
    ofNetwork.holdFour = (network) => {
      words[NETWORK >>> 2] = network.#a;
      bytes[NETWORK + 4] = network.#prefix;
    };
    ofNetwork.holdSix = (network) => {
      const target = words;
      const at = NETWORK >>> 2;
      target[at] = network.#a;
      target[at + 1] = network.#b;
      target[at + 2] = network.#c;
      target[at + 3] = network.#d;
      bytes[NETWORK + 16] = network.#prefix;
    };
    ofNetwork.hasFour = (network, member) => liesInFour(member, network.#prefix, network.#a);
    ofNetwork.hasSix = (network, member) => liesInSix(
      member, network.#prefix, network.#a, network.#b, network.#c, network.#d,
    );
    ofNetwork.putNetwork = (network, place) => {
      const target = view;
      target.setInt32(place, network.#a, LITTLE);
      if (network.#family === 4) {
        bytes[place + 4] = network.#prefix;
        return;
      }
      target.setInt32(place + 4, network.#b, LITTLE);
      target.setInt32(place + 8, network.#c, LITTLE);
      target.setInt32(place + 12, network.#d, LITTLE);
      bytes[place + 16] = network.#prefix;
    };
  }

  constructor(made, family, prefix, a, b, c, d) {
    if (made !== MADE) {
      throw new TypeError('an IpNetwork is made by IpNetwork.parse, Ipv4Network or Ipv6Network');
    }
    this.#family = family;
    this.#prefix = prefix;
    this.#a = a;
    this.#b = b;
    this.#c = c;
    this.#d = d;
    Object.freeze(this);
  }

  static parse(text) {
    const fault = readEither(text);
    if (fault !== 0) throw networkError(fault, text, 'IP network');
    return eitherAt(OTHER);
  }

  static tryParse(text) {
    return readEither(text) === 0 ? eitherAt(OTHER) : undefined;
  }

  static compare(one, other) {
    return requireNetwork(one, 'one').compare(other);
  }

  get family() {
    return this.#family;
  }

  get prefix() {
    return this.#prefix;
  }

  get address() {
    putNetwork(this, OTHER);
    return addressAt(OTHER, this.#octets);
  }

  get first() {
    return this.#end(this.#family === 4 ? v4Network : v6Network);
  }

  get last() {
    return this.#end(this.#family === 4 ? v4Broadcast : v6Broadcast);
  }

  get mask() {
    return this.#end(this.#family === 4 ? v4Mask : v6Mask);
  }

  get block() {
    const first = this.first;
    const kind = this.#family === 4 ? Ipv4Network : Ipv6Network;
    return new kind(first, this.#prefix);
  }

  get size() {
    this.#hold();
    if (this.#family === 4) {
      never(v4Size(NETWORK, 0, NUMBER, 0));
      return view.getBigUint64(NUMBER, true);
    }
    never(v6Size(NETWORK, 0, NUMBER, 0));
    const highest = BigInt(bytes[NUMBER]) << 128n;
    const high = view.getBigUint64(NUMBER + 1, false) << 64n;
    return highest | high | view.getBigUint64(NUMBER + 9, false);
  }

  contains(address) {
    const member = typeof address === 'string' ? IpAddress.parse(address) : address;
    try {
      return this.#family === 4 ? hasFour(this, member) : hasSix(this, member);
    } catch (error) {
      if (isAddress(member)) throw error;
      if (isNetwork(member)) throw new TypeError(networkGiven('address'));
      throw wrongType('address', 'an IpAddress or a string', member);
    }
  }

  isSubnetOf(other) {
    return this.#isPartOf(networkOf(other, 'other'));
  }

  isSupernetOf(other) {
    return networkOf(other, 'other').#isPartOf(this);
  }

  overlaps(other) {
    const network = networkOf(other, 'other');
    const four = this.#family === 4;
    return this.#ask(network, four ? v4Overlaps : v6Overlaps);
  }

  relationTo(other) {
    const network = networkOf(other, 'other');
    const inside = this.#isPartOf(network);
    const around = network.#isPartOf(this);
    if (inside) return around ? 'same' : 'inside';
    return around ? 'around' : 'apart';
  }

  compare(other) {
    requireNetwork(other, 'other');
    if (this.#family !== other.#family) return this.#family === 4 ? -1 : 1;
    this.#hold();
    putNetwork(other, OTHER);
    const compare = this.#family === 4 ? v4Compare : v6Compare;
    never(compare(NETWORK, 0, OTHER, 0, NUMBER, 0));
    return view.getInt32(NUMBER, true);
  }

  equals(other) {
    requireNetwork(other, 'other');
    return this.#family === other.#family && this.#prefix === other.#prefix && this.#a === other.#a
      && this.#b === other.#b && this.#c === other.#c && this.#d === other.#d;
  }

  nth(number) {
    return this.#member(wholeNumber(number, 'number'));
  }

  subnetAt(prefix, number) {
    this.#requireLonger(prefix);
    return this.#subnet(prefix, wholeNumber(number, 'number'));
  }

  subnets(prefix) {
    this.#requireLonger(prefix);
    return this.#each((number) => this.#subnet(prefix, number));
  }

  [Symbol.iterator]() {
    return this.#each((number) => this.#member(number));
  }

  toString() {
    this.#hold();
    return printed(this.#family === 4 ? v4Canonical : v6Canonical, NETWORK);
  }

  toJSON() {
    return this.toString();
  }

  [Symbol.toPrimitive](hint) {
    if (hint === 'number') {
      throw new TypeError('networks are ordered by compare, and not by < or >');
    }
    return this.toString();
  }

  [INSPECT]() {
    return `${this.constructor.name}(${this})`;
  }

  get #octets() {
    return this.#family === 4 ? 4 : 16;
  }

  #hold() {
    if (this.#family === 4) holdFour(this);
    else holdSix(this);
  }

  #end(call) {
    this.#hold();
    never(call(NETWORK, 0, ADDRESS, 0));
    return addressAt(ADDRESS, this.#octets);
  }

  #isPartOf(outer) {
    return this.#ask(outer, this.#family === 4 ? v4IsSubnetOf : v6IsSubnetOf);
  }

  #ask(other, call) {
    if (this.#family !== other.#family) return false;
    this.#hold();
    putNetwork(other, OTHER);
    never(call(NETWORK, 0, OTHER, 0, ANSWER, 0));
    return bytes[ANSWER] === 1;
  }

  #requireLonger(prefix) {
    const width = this.#family === 4 ? 32 : 128;
    if (typeof prefix !== 'number') throw wrongType('prefix', 'a number', prefix);
    if (!Number.isInteger(prefix) || prefix < this.#prefix || prefix > width) {
      throw prefixError(prefix, this.#prefix, width);
    }
  }

  /** The member with this number, or undefined past the last. */
  #member(number) {
    if (!putNumber(number, this.#family)) return undefined;
    this.#hold();
    const fault = this.#family === 4
      ? v4Nth(NETWORK, 0, view.getInt32(NUMBER, true), ADDRESS, 0)
      : v6Nth(NETWORK, 0, NUMBER, 0, ADDRESS, 0);
    return fault === 0 ? addressAt(ADDRESS, this.#octets) : undefined;
  }

  /**
   * The block with this prefix length and number within the network, or undefined past the last.
   */
  #subnet(prefix, number) {
    if (!putNumber(number, this.#family)) return undefined;
    this.#hold();
    const fault = this.#family === 4
      ? v4SubnetAt(NETWORK, 0, prefix, view.getInt32(NUMBER, true), OTHER, 0)
      : v6SubnetAt(NETWORK, 0, prefix, NUMBER, 0, OTHER, 0);
    return fault === 0 ? networkAt(OTHER, this.#family) : undefined;
  }

  /** The results for the numbers from 0 on, up to the first that is undefined. */
  *#each(give) {
    for (let number = 0; number < Number.MAX_SAFE_INTEGER; number += 1) {
      const value = give(number);
      if (value === undefined) return;
      yield value;
    }
    for (let number = BigInt(Number.MAX_SAFE_INTEGER); ; number += 1n) {
      const value = give(number);
      if (value === undefined) return;
      yield value;
    }
  }
}

const { hasFour, hasSix, holdFour, holdSix } = ofNetwork;
/**
 * Whether a value is a network of this package; the family of one, 4 or 6; and how its struct is
 * written to the memory.
 */
export const { isNetwork, familyOfNetwork, putNetwork } = ofNetwork;

/** An IPv4 network. */
export class Ipv4Network extends IpNetwork {
  constructor(address, prefix, word) {
    if (address === MADE) {
      super(MADE, 4, prefix, word, 0, 0, 0);
      return;
    }
    const word4 = requireParts(address, prefix, 4, 32);
    /* 0 instead of -0. */
    super(MADE, 4, prefix + 0, word4, 0, 0, 0);
  }

  static parse(text) {
    const fault = askText(v4Read, textOf(text, 'text'), OTHER);
    if (fault !== 0) throw networkError(fault, text, 'IPv4 network');
    return networkAt(OTHER, 4);
  }

  static tryParse(text) {
    const fault = askText(v4Read, textOf(text, 'text'), OTHER);
    return fault === 0 ? networkAt(OTHER, 4) : undefined;
  }
}

/** An IPv6 network. */
export class Ipv6Network extends IpNetwork {
  constructor(address, prefix, a, b, c, d) {
    if (address === MADE) {
      super(MADE, 6, prefix, a, b, c, d);
      return;
    }
    const first = requireParts(address, prefix, 6, 128);
    super(
      MADE, 6, prefix + 0, first, view.getInt32(ADDRESS + 4, LITTLE),
      view.getInt32(ADDRESS + 8, LITTLE), view.getInt32(ADDRESS + 12, LITTLE),
    );
  }

  static parse(text) {
    const fault = askText(v6Read, textOf(text, 'text'), OTHER);
    if (fault !== 0) throw networkError(fault, text, 'IPv6 network');
    return networkAt(OTHER, 6);
  }

  static tryParse(text) {
    const fault = askText(v6Read, textOf(text, 'text'), OTHER);
    return fault === 0 ? networkAt(OTHER, 6) : undefined;
  }
}

/** The network of this family with the struct at this place. */
export function networkAt(place, family) {
  const from = view;
  const first = from.getInt32(place, LITTLE);
  if (family === 4) return new Ipv4Network(MADE, bytes[place + 4], first);
  return new Ipv6Network(MADE, bytes[place + 16], first, from.getInt32(place + 4, LITTLE),
    from.getInt32(place + 8, LITTLE), from.getInt32(place + 12, LITTLE));
}

/** The network that an argument is or names, or a TypeError that names the argument. */
export function networkOf(value, name) {
  if (isNetwork(value)) return value;
  if (typeof value !== 'string') throw wrongType(name, 'an IpNetwork or a string', value);
  return IpNetwork.parse(value);
}

/** The same for an element of a list, with its index in the error. */
export function elementOf(value, name, index) {
  if (isNetwork(value)) return value;
  if (typeof value !== 'string') {
    throw wrongType(`${name}[${index}]`, 'an IpNetwork or a string', value);
  }
  const fault = readEither(value);
  if (fault !== 0) throw networkError(fault, value, 'IP network', index);
  return eitherAt(OTHER);
}

/** The address that is looked up in a list. */
export function memberOf(value) {
  if (isNetwork(value)) throw new TypeError(networkGiven('address'));
  return addressOf(value, 'address');
}

/* A network of either family is its family, the struct of IPv4 and the struct of IPv6. */
const readEither = (text) => askText(readWithCause, textOf(text, 'text'), OTHER);
const eitherAt = (place) => (
  bytes[place] === 4 ? networkAt(place + 1, 4) : networkAt(place + 6, 6)
);

function requireNetwork(value, name) {
  if (!isNetwork(value)) throw wrongType(name, 'an IpNetwork', value);
  return value;
}
