import { v6Unmapped } from './library.mjs';
import { NUMBER, OTHER, bytes, view } from './memory.mjs';
import { never, wrongType } from './errors.mjs';
import { withRoom } from './blocks.mjs';
import { encoder, putText } from './texts.mjs';

/* A column goes through the memory in chunks of at most this many rows, and of about this many
 * units of text. */
const CHUNK_ROWS = 4096;
const CHUNK_UNITS = 65536;

/** Packed structs of one family, of equal length, one after the other. */
class Packed {
  constructor(struct) {
    this.struct = struct;
    this.bytes = new Uint8Array(0);
    this.count = 0;
  }

  /** Makes room for `count` more. */
  reserve(count) {
    const length = (this.count + count) * this.struct;
    if (length <= this.bytes.length) return;
    const longer = new Uint8Array(2 * length);
    longer.set(this.bytes.subarray(0, this.count * this.struct));
    this.bytes = longer;
  }

  /** Copies one from the memory. There must be room for it. */
  push(place) {
    const { struct, bytes: target } = this;
    const from = bytes;
    const at = this.count * struct;
    for (let i = 0; i < struct; i += 1) target[at + i] = from[place + i];
    this.count += 1;
  }

  /** Writes the one with this number to the memory. */
  put(number, place) {
    const { struct, bytes: from } = this;
    const target = bytes;
    const at = number * struct;
    for (let i = 0; i < struct; i += 1) target[place + i] = from[at + i];
  }

  get packed() {
    return this.bytes.subarray(0, this.count * this.struct);
  }
}

/**
 * The rows of a column of texts: for each row its fault, its family, and its place among those of
 * the family. A form says by which call of the library a column is read, the length of its structs
 * in bytes, which byte is 4 for IPv4, and for each family where the packed form begins in a struct,
 * and its length.
 */
export class Rows {
  #mapped;

  constructor(count, form) {
    this.count = count;
    this.form = form;
    this.refused = 0;
    this.firstRefused = undefined;
    this.faults = new Uint8Array(count);
    this.families = new Uint8Array(count);
    this.places = new Uint32Array(count);
    this.packed = form.lengths.map((length) => new Packed(length));
  }

  /** Copies the rows of these texts from the memory, the first of which has this number. */
  take(first, texts, structs, faults) {
    const count = texts.length;
    const { struct, tag, starts } = this.form;
    const [fours, sixes] = this.packed;
    fours.reserve(count);
    sixes.reserve(count);
    for (let i = 0; i < count; i += 1) {
      const fault = bytes[faults + i];
      if (fault !== 0) {
        this.firstRefused ??= { fault, text: texts[i], row: first + i };
        this.faults[first + i] = fault;
        this.refused += 1;
        continue;
      }
      const place = structs + i * struct;
      const four = bytes[place + tag] === 4;
      this.#push(first + i, four ? 4 : 6, place + starts[four ? 0 : 1]);
    }
  }

  /**
   * For a column of addresses, these rows with each IPv4-mapped address replaced by the IPv4
   * address.
   */
  unmapped() {
    if (this.packed[1].count === 0) return this;
    const { count, families, places, packed: [fours, sixes] } = this;
    const made = new Rows(count, this.form);
    made.refused = this.refused;
    made.firstRefused = this.firstRefused;
    made.faults = this.faults;
    made.packed[0].reserve(fours.count + sixes.count);
    made.packed[1].reserve(sixes.count);
    for (let row = 0; row < count; row += 1) {
      if (families[row] === 0) continue;
      (families[row] === 4 ? fours : sixes).put(places[row], OTHER);
      const isMapped = families[row] === 6 && v6Unmapped(OTHER, 0, NUMBER, 0) === 0;
      if (isMapped) made.#push(row, 4, NUMBER);
      else made.#push(row, families[row], OTHER);
    }
    return made;
  }

  /**
   * For a column of addresses, the IPv4 addresses in the IPv4-mapped ones, packed, and the places of
   * these among the IPv6 addresses.
   */
  get mapped() {
    this.#mapped ??= this.#findMapped();
    return this.#mapped;
  }

  #findMapped() {
    const sixes = this.packed[1];
    const fours = new Packed(4);
    const places = [];
    fours.reserve(sixes.count);
    for (let place = 0; place < sixes.count; place += 1) {
      sixes.put(place, OTHER);
      if (v6Unmapped(OTHER, 0, NUMBER, 0) !== 0) continue;
      fours.push(NUMBER);
      places.push(place);
    }
    return { packed: fours.packed, places };
  }

  /** Copies the struct of a row and a family from the memory. There must be room for it. */
  #push(row, family, place) {
    const packed = this.packed[family === 4 ? 0 : 1];
    this.families[row] = family;
    this.places[row] = packed.count;
    packed.push(place);
  }

  /** The packed structs of a family. */
  packedOf(kind) {
    return this.packed[kind.family === 4 ? 0 : 1].packed;
  }
}

/** The rows of a column of texts. */
export function readRows(texts, form) {
  if (!Array.isArray(texts)) throw wrongType('texts', 'an array of strings', texts);
  const rows = new Rows(texts.length, form);
  for (let from = 0; from < rows.count; ) {
    const chunk = chunkOf(texts, from, rows.count);
    readChunk(chunk, form, (structs, faults) => rows.take(from, chunk, structs, faults));
    from += chunk.length;
  }
  return rows;
}

/** The texts of the next chunk. Each element is read once. */
function chunkOf(texts, from, count) {
  const chunk = [];
  let units = 0;
  for (let row = from; row < count && chunk.length < CHUNK_ROWS && units < CHUNK_UNITS; row += 1) {
    const text = texts[row];
    if (typeof text !== 'string') throw wrongType(`texts[${row}]`, 'a string', text);
    chunk.push(text);
    units += text.length;
  }
  return chunk;
}

/** Reads a chunk, and passes on where its structs and its faults are. */
function readChunk(chunk, { call, struct }, tell) {
  const count = chunk.length;
  const units = chunk.reduce((sum, text) => sum + text.length, 0);
  const offsets = Math.ceil(units / 4) * 4;
  const structs = offsets + 4 * (count + 1);
  const faults = structs + struct * count;
  withRoom(faults + count, (place) => {
    putChunk(chunk, units, place, place + offsets);
    never(call(place, 0, units, 0, place + offsets, 0, count + 1, 0, place + structs, 0, count, 0,
      place + faults, 0, count, 0));
    tell(place + structs, place + faults);
  });
}

/** Writes texts one after the other, and the offsets at which each begins and the last one ends. */
function putChunk(chunk, units, place, offsets) {
  let at = 0;
  for (let row = 0; row < chunk.length; row += 1) {
    view.setUint32(offsets + 4 * row, at, true);
    at += chunk[row].length;
  }
  view.setUint32(offsets + 4 * chunk.length, at, true);
  const { read, written } = encoder.encodeInto(
    chunk.join(''), bytes.subarray(place, place + units),
  );
  if (read === units && written === units) return;
  /* Some unit is not ASCII and takes more than one byte. */
  let start = place;
  for (const text of chunk) {
    putText(text, start);
    start += text.length;
  }
}
