/* RFC 1951, section 3.2.5: the least length or distance of each code, and the number of extra bits
 * that follow it. */
const LENGTHS = [
  3, 4, 5, 6, 7, 8, 9, 10, 11, 13, 15, 17, 19, 23, 27, 31, 35, 43, 51, 59, 67, 83, 99, 115, 131,
  163, 195, 227, 258,
];
const LENGTH_BITS = [
  0, 0, 0, 0, 0, 0, 0, 0, 1, 1, 1, 1, 2, 2, 2, 2, 3, 3, 3, 3, 4, 4, 4, 4, 5, 5, 5, 5, 0,
];
const DISTANCE_BITS = Array.from({ length: 30 }, (_, code) => Math.max(0, (code >> 1) - 1));
const DISTANCES = DISTANCE_BITS.map((bits, code) => (
  code < 4 ? code + 1 : ((2 + (code & 1)) << bits) + 1
));
/* Section 3.2.7: the order of the lengths of the code length codes. */
const ORDER = [16, 17, 18, 0, 8, 7, 9, 6, 10, 5, 11, 4, 12, 3, 13, 2, 14, 1, 15];

/** The number of codes of each length, and their symbols in the order of the codes. */
function codesOf(lengths) {
  const counts = new Uint16Array(16);
  for (const length of lengths) counts[length] += 1;
  counts[0] = 0;
  const starts = new Uint16Array(17);
  for (let length = 1; length <= 15; length += 1) {
    starts[length + 1] = starts[length] + counts[length];
  }
  const symbols = new Uint16Array(lengths.length);
  lengths.forEach((length, symbol) => {
    if (length > 0) symbols[starts[length]++] = symbol;
  });
  return { counts, symbols };
}

/** The bits of a stream, from the lowest bit of each byte on. */
class Bits {
  constructor(bytes) {
    this.bytes = bytes;
    this.at = 0;
    this.hold = 0;
    this.held = 0;
  }

  /** The number in the next `count` bits, the lowest first. */
  take(count) {
    while (this.held < count) {
      this.hold |= this.bytes[this.at++] << this.held;
      this.held += 8;
    }
    const value = this.hold & ((1 << count) - 1);
    this.hold >>>= count;
    this.held -= count;
    return value;
  }

  /** The symbol of the next code. */
  symbol({ counts, symbols }) {
    let code = 0;
    let first = 0;
    let index = 0;
    for (let length = 1; ; length += 1) {
      code |= this.take(1);
      if (code - first < counts[length]) return symbols[index + code - first];
      index += counts[length];
      first = (first + counts[length]) << 1;
      code <<= 1;
    }
  }

  /** The codes that a block contains: those of bytes and lengths, and those of distances. */
  codes() {
    const literals = this.take(5) + 257;
    const distances = this.take(5) + 1;
    const given = this.take(4) + 4;
    const ofLengths = new Array(19).fill(0);
    for (let i = 0; i < given; i += 1) ofLengths[ORDER[i]] = this.take(3);
    const code = codesOf(ofLengths);
    const lengths = [];
    while (lengths.length < literals + distances) {
      const symbol = this.symbol(code);
      if (symbol < 16) lengths.push(symbol);
      else {
        const [bits, least] = [[2, 3], [3, 3], [7, 11]][symbol - 16];
        const times = this.take(bits) + least;
        lengths.push(...new Array(times).fill(symbol === 16 ? lengths[lengths.length - 1] : 0));
      }
    }
    return [codesOf(lengths.slice(0, literals)), codesOf(lengths.slice(literals))];
  }
}

/**
 * The uncompressed bytes of a stream of RFC 1951. All its blocks contain their codes, and it has
 * length bytes.
 */
export function inflated(packed, length) {
  const bits = new Bits(packed);
  const bytes = new Uint8Array(length);
  let at = 0;
  for (let last = 0; last === 0; ) {
    last = bits.take(1);
    if (bits.take(2) !== 2) {
      throw new Error('the library is packed otherwise than build.mjs packs it');
    }
    const [literals, distances] = bits.codes();
    for (let symbol = bits.symbol(literals); symbol !== 256; symbol = bits.symbol(literals)) {
      if (symbol < 256) bytes[at++] = symbol;
      else {
        const run = LENGTHS[symbol - 257] + bits.take(LENGTH_BITS[symbol - 257]);
        const code = bits.symbol(distances);
        const back = DISTANCES[code] + bits.take(DISTANCE_BITS[code]);
        for (let i = 0; i < run; i += 1, at += 1) bytes[at] = bytes[at - back];
      }
    }
  }
  return bytes;
}
