import { addressReadColumn, readWithCauseColumn } from './library.mjs';
import { ADDRESS, ANSWER, OTHER, bytes, view } from './memory.mjs';
import { addressError, codeOf, never, wrongType } from './errors.mjs';
import { flagOf } from './arguments.mjs';
import { MADE, addressAt } from './address.mjs';
import { networkAt } from './network.mjs';
import { KINDS, withCopy, withRoom } from './blocks.mjs';
import { readRows } from './rows.mjs';
import { INSPECT, SENT, shownList } from './shown.mjs';
import { textAt } from './texts.mjs';

/* How columns are read: an address is 16 octets and their number, a network is its family and a
 * struct for each family. */
const ADDRESSES = {
  call: addressReadColumn, struct: 17, tag: 16, starts: [0, 0], lengths: [4, 16],
};
const NETWORKS = {
  call: readWithCauseColumn, struct: 23, tag: 0, starts: [1, 6], lengths: [5, 17],
};

const PRINTED_ROWS = 1024;

/* Functions with access to the rows of the classes. */
let addressRows;
let networkRows;

/** A column of texts read as addresses. It does not change. */
export class AddressColumn {
  sent = SENT;
  #rows;

  static {
    addressRows = (value) => (
      typeof value === 'object' && value !== null && #rows in value ? value.#rows : undefined
    );
  }

  constructor(made, rows) {
    if (made !== MADE) throw new TypeError('an AddressColumn is made by AddressColumn.read');
    this.#rows = rows;
    Object.freeze(this);
  }

  static read(texts, options = undefined) {
    const unmapped = flagOf(options, 'unmapped');
    const rows = readRows(texts, ADDRESSES);
    return new AddressColumn(MADE, unmapped ? rows.unmapped() : rows);
  }

  get length() {
    return this.#rows.count;
  }

  get refused() {
    return this.#rows.refused;
  }

  codeAt(row) {
    return codeOf(this.#rows.faults[rowOf(row)]);
  }

  at(row) {
    return structAt(
      this.#rows, row, ADDRESS, (family) => addressAt(ADDRESS, family === 4 ? 4 : 16),
    );
  }

  * [Symbol.iterator]() {
    for (let row = 0; row < this.length; row += 1) yield this.at(row);
  }

  toJSON() {
    return Array.from(this, (value) => (value === undefined ? null : String(value)));
  }

  [INSPECT]() {
    return shownList(this, this.length, this, '[]');
  }
}

/** A column of texts read as networks of either family. It does not change. */
export class NetworkColumn {
  sent = SENT;
  #rows;

  static {
    networkRows = (value) => (
      typeof value === 'object' && value !== null && #rows in value ? value.#rows : undefined
    );
  }

  constructor(made, rows) {
    if (made !== MADE) throw new TypeError('a NetworkColumn is made by NetworkColumn.read');
    this.#rows = rows;
    Object.freeze(this);
  }

  static read(texts) {
    return new NetworkColumn(MADE, readRows(texts, NETWORKS));
  }

  get length() {
    return this.#rows.count;
  }

  get refused() {
    return this.#rows.refused;
  }

  codeAt(row) {
    return codeOf(this.#rows.faults[rowOf(row)]);
  }

  at(row) {
    return structAt(this.#rows, row, OTHER, (family) => networkAt(OTHER, family));
  }

  toStrings() {
    const rows = this.#rows;
    const texts = KINDS.map((kind) => printedAll(kind, rows.packedOf(kind)));
    return Array.from(rows.families, (family, row) => (
      family === 0 ? undefined : texts[family === 4 ? 0 : 1][rows.places[row]]));
  }

  * [Symbol.iterator]() {
    for (let row = 0; row < this.length; row += 1) yield this.at(row);
  }

  toJSON() {
    return Array.from(this, (value) => (value === undefined ? null : String(value)));
  }

  [INSPECT]() {
    return shownList(this, this.length, this, '[]');
  }
}

/** The number that an argument is, or a TypeError. */
function rowOf(row) {
  if (typeof row !== 'number') throw wrongType('row', 'a number', row);
  return row;
}

/**
 * The result of make for the struct of a row, which is written to this place; undefined if the row
 * has none.
 */
function structAt(rows, row, place, make) {
  const family = rows.families[rowOf(row)];
  if (family !== 4 && family !== 6) return undefined;
  rows.packed[family === 4 ? 0 : 1].put(rows.places[row], place);
  return make(family);
}

/** The texts of packed networks. */
function printedAll(kind, packed) {
  const texts = [];
  for (let from = 0; from < packed.length; from += PRINTED_ROWS * kind.struct) {
    const part = packed.subarray(from, from + PRINTED_ROWS * kind.struct);
    const count = part.length / kind.struct;
    const offsets = count * kind.textRoom;
    withCopy(part, (networks) => withRoom(offsets + 4 * (count + 1), (place) => {
      never(kind.printColumn(
        networks, 0, count, 0, place, 0, offsets, 0, place + offsets, 0, count + 1, 0, ANSWER, 0,
      ));
      let start = 0;
      for (let row = 1; row <= count; row += 1) {
        const end = view.getUint32(place + offsets + 4 * row, true);
        texts.push(textAt(place + start, end - start));
        start = end;
      }
    }));
  }
  return texts;
}

/**
 * The rows of a column of addresses, or of texts that are read as one. If invalid is 'raise', each
 * must have an address.
 */
export function rowsOfAddresses(value, invalid) {
  const rows = addressRows(value) ?? addressRows(columnOf(value));
  if (invalid === 'raise' && rows.refused > 0) {
    const { text, row } = rows.firstRefused;
    throw addressError(text, 'IP address', row);
  }
  return rows;
}

/** The column of an array of texts. */
function columnOf(value) {
  if (!Array.isArray(value)) {
    throw wrongType('addresses', 'an AddressColumn or an array of strings', value);
  }
  return AddressColumn.read(value);
}

/** The rows of a column of networks; undefined for any other value. */
export const rowsOfNetworks = (value) => networkRows(value);

/**
 * Calls `ask` for packed addresses of a family, some thousands at a time, with the place of the
 * addresses of a chunk, their number, and the number of the first one.
 */
export function eachChunkOf(packed, kind, ask) {
  const step = 4096 * kind.octets;
  for (let from = 0; from < packed.length; from += step) {
    const part = packed.subarray(from, from + step);
    withCopy(part, (place) => ask(place, part.length / kind.octets, from / kind.octets));
  }
}

/**
 * For each row the element of one of two lists at the row's place, by its family, or a given value
 * if the row has no address. The lists are not used for anything else.
 */
export function eachRow(rows, lists, Kind, none) {
  const { families, places, count } = rows;
  const [fours, sixes] = lists;
  if (fours.length === count) return fours;
  if (sixes.length === count) return sixes;
  const target = new Kind(count);
  for (let row = 0; row < count; row += 1) {
    const family = families[row];
    target[row] = family === 0 ? none : family === 4 ? fours[places[row]] : sixes[places[row]];
  }
  return target;
}

/** The answers of rows, with null for each one without an address. */
export const withNulls = ({ families }, answers) => Array.from(
  answers, (answer, row) => (families[row] === 0 ? null : answer),
);
