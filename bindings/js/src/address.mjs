import { addressCanonical, addressRead, v4Compare, v6Compare, v6Unmapped } from './library.mjs';
import { ADDRESS, LITTLE, NUMBER, OTHER, bytes, view, words } from './memory.mjs';
import { addressError, textOf, wrongType } from './errors.mjs';
import { askText, printed } from './texts.mjs';
import { INSPECT, SENT } from './shown.mjs';
import { agreeInFour, agreeInSix } from './masks.mjs';

/**
 * Known only to this package: the first argument of a constructor that is called with what the
 * library wrote.
 */
export const MADE = Symbol('made');

/* The type and the length of a typed array, whatever properties were added to it. */
const TYPED = Object.getPrototypeOf(Uint8Array.prototype);
const tagOf = Object.getOwnPropertyDescriptor(TYPED, Symbol.toStringTag).get;
const lengthOf = Object.getOwnPropertyDescriptor(TYPED, 'length').get;

/* Functions with access to the fields of the class. They are constant after the class is defined,
 * so that an engine need not check what they are. */
const ofAddress = { __proto__: null };

/** An address of either family. It does not change. */
export class IpAddress {
  sent = SENT;
  /* Numbers from the start, so that an engine need not check what they are. */
  #family = 0;
  /* The octets, four in a number, as they are in the memory. */
  #a = 0;
  #b = 0;
  #c = 0;
  #d = 0;

  static {
    ofAddress.familyOf = (address) => address.#family;
    ofAddress.isAddress = (value) => (
      typeof value === 'object' && value !== null && #family in value
    );
    ofAddress.putAddress = (address, place) => {
      const target = words;
      const at = place >>> 2;
      target[at] = address.#a;
      if (address.#family === 4) return;
      target[at + 1] = address.#b;
      target[at + 2] = address.#c;
      target[at + 3] = address.#d;
    };
    /* One for each family, so that an engine sees objects of only one shape in it. */
    ofAddress.liesInFour = (address, prefix, a) => (
      address.#family === 4 && agreeInFour(prefix, a, address.#a)
    );
    ofAddress.liesInSix = (address, prefix, a, b, c, d) => (
      address.#family === 6 && agreeInSix(
        prefix, a, b, c, d, address.#a, address.#b, address.#c, address.#d,
      )
    );
  }

  constructor(made, family, a, b, c, d) {
    if (made !== MADE) {
      throw new TypeError('an IpAddress is made by IpAddress.parse, Ipv4Address or Ipv6Address');
    }
    this.#family = family;
    this.#a = a;
    this.#b = b;
    this.#c = c;
    this.#d = d;
    Object.freeze(this);
  }

  static parse(text) {
    const fault = askText(addressRead, textOf(text, 'text'), ADDRESS);
    if (fault !== 0) throw addressError(text, 'IP address');
    return addressAt(ADDRESS, bytes[ADDRESS + 16]);
  }

  static tryParse(text) {
    const fault = askText(addressRead, textOf(text, 'text'), ADDRESS);
    return fault === 0 ? addressAt(ADDRESS, bytes[ADDRESS + 16]) : undefined;
  }

  static fromOctets(octets) {
    const length = countOf(octets);
    if (length !== 4 && length !== 16) {
      throw new RangeError(`octets are ${length}, and not 4 or 16`);
    }
    bytes.set(octets, ADDRESS);
    return addressAt(ADDRESS, length);
  }

  static compare(one, other) {
    return requireAddress(one, 'one').compare(other);
  }

  get family() {
    return this.#family;
  }

  get octets() {
    putAddress(this, ADDRESS);
    return bytes.slice(ADDRESS, ADDRESS + (this.#family === 4 ? 4 : 16));
  }

  get unmapped() {
    if (this.#family === 4) return this;
    putAddress(this, ADDRESS);
    return v6Unmapped(ADDRESS, 0, NUMBER, 0) === 0 ? addressAt(NUMBER, 4) : this;
  }

  compare(other) {
    requireAddress(other, 'other');
    if (this.#family !== other.#family) return this.#family - other.#family < 0 ? -1 : 1;
    return orderOfTwo(this, other);
  }

  equals(other) {
    requireAddress(other, 'other');
    return this.#family === other.#family && this.#a === other.#a && this.#b === other.#b
      && this.#c === other.#c && this.#d === other.#d;
  }

  toString() {
    putAddress(this, ADDRESS);
    bytes[ADDRESS + 16] = this.#family === 4 ? 4 : 16;
    return printed(addressCanonical, ADDRESS);
  }

  toJSON() {
    return this.toString();
  }

  [Symbol.toPrimitive](hint) {
    if (hint === 'number') {
      throw new TypeError('addresses are ordered by compare, and not by < or >');
    }
    return this.toString();
  }

  [INSPECT]() {
    return `${this.constructor.name}(${this})`;
  }
}

/** An IPv4 address. */
export class Ipv4Address extends IpAddress {
  constructor(number, word) {
    if (number === MADE) {
      super(MADE, 4, word, 0, 0, 0);
      return;
    }
    if (typeof number !== 'number') throw wrongType('number', 'a number', number);
    if (!Number.isInteger(number) || number < 0 || number > 0xffffffff) {
      throw new RangeError(`number is ${number}, not a whole number from 0 to 4294967295`);
    }
    view.setUint32(NUMBER, number, false);
    super(MADE, 4, view.getInt32(NUMBER, LITTLE), 0, 0, 0);
  }

  static parse(text) {
    const address = Ipv4Address.tryParse(text);
    if (address === undefined) throw addressError(text, 'IPv4 address');
    return address;
  }

  static tryParse(text) {
    const address = IpAddress.tryParse(text);
    return address !== undefined && familyOf(address) === 4 ? address : undefined;
  }

  static fromOctets(octets) {
    return ofLength(octets, 4);
  }

  get number() {
    putAddress(this, ADDRESS);
    return view.getUint32(ADDRESS, false);
  }
}

/** An IPv6 address. */
export class Ipv6Address extends IpAddress {
  constructor(number, a, b, c, d) {
    if (number === MADE) {
      super(MADE, 6, a, b, c, d);
      return;
    }
    if (typeof number !== 'bigint') throw wrongType('number', 'a bigint', number);
    if (BigInt.asUintN(128, number) !== number) {
      throw new RangeError('number is not from 0 to 340282366920938463463374607431768211455');
    }
    view.setBigUint64(NUMBER, number >> 64n, false);
    view.setBigUint64(NUMBER + 8, BigInt.asUintN(64, number), false);
    const from = view;
    super(
      MADE, 6, from.getInt32(NUMBER, LITTLE), from.getInt32(NUMBER + 4, LITTLE),
      from.getInt32(NUMBER + 8, LITTLE), from.getInt32(NUMBER + 12, LITTLE),
    );
  }

  static parse(text) {
    const address = Ipv6Address.tryParse(text);
    if (address === undefined) throw addressError(text, 'IPv6 address');
    return address;
  }

  static tryParse(text) {
    const address = IpAddress.tryParse(text);
    return address !== undefined && familyOf(address) === 6 ? address : undefined;
  }

  static fromOctets(octets) {
    return ofLength(octets, 16);
  }

  get number() {
    putAddress(this, ADDRESS);
    return (view.getBigUint64(ADDRESS, false) << 64n) | view.getBigUint64(ADDRESS + 8, false);
  }
}

/**
 * The family of an address, 4 or 6; whether a value is an address of this package; how an address
 * is written to the memory, at a multiple of 4; and whether it lies in the IPv4 or IPv6 network of
 * a prefix length and octets.
 */
export const { familyOf, isAddress, putAddress, liesInFour, liesInSix } = ofAddress;

/** The address with the 4 or 16 octets at this place. */
export function addressAt(place, length) {
  const from = view;
  const first = from.getInt32(place, LITTLE);
  if (length === 4) return new Ipv4Address(MADE, first);
  return new Ipv6Address(
    MADE, first, from.getInt32(place + 4, LITTLE), from.getInt32(place + 8, LITTLE),
    from.getInt32(place + 12, LITTLE),
  );
}

/** The address that an argument is or names, or a TypeError that names the argument. */
export function addressOf(value, name) {
  if (isAddress(value)) return value;
  if (typeof value !== 'string') throw wrongType(name, 'an IpAddress or a string', value);
  return IpAddress.parse(value);
}

function requireAddress(value, name) {
  if (!isAddress(value)) throw wrongType(name, 'an IpAddress', value);
  return value;
}

/** The number of octets of a Uint8Array, or a TypeError. No code of the value is run. */
function countOf(octets) {
  if (tagOf.call(octets) !== 'Uint8Array') throw wrongType('octets', 'a Uint8Array', octets);
  return lengthOf.call(octets);
}

function ofLength(octets, length) {
  const count = countOf(octets);
  if (count !== length) throw new RangeError(`octets are ${count}, and not ${length}`);
  return IpAddress.fromOctets(octets);
}

/** The order of two addresses of one family: that of the networks of these single addresses. */
function orderOfTwo(one, other) {
  const four = familyOf(one) === 4;
  const prefix = four ? 4 : 16;
  putAddress(one, ADDRESS);
  putAddress(other, OTHER);
  bytes[ADDRESS + prefix] = 0;
  bytes[OTHER + prefix] = 0;
  const compare = four ? v4Compare : v6Compare;
  compare(ADDRESS, 0, OTHER, 0, NUMBER, 0);
  return view.getInt32(NUMBER, true);
}
