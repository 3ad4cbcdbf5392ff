import { library } from './library.mjs';

/* The places of single structs, results and short texts, which each call overwrites. A struct takes
 * at most 32 bytes. */
export const NETWORK = Math.ceil(Number(library.__heap_base.value) / 64) * 64;
export const OTHER = NETWORK + 32;
export const ADDRESS = NETWORK + 64;
export const NUMBER = NETWORK + 96;
export const ANSWER = NETWORK + 128;
export const TEXT = NETWORK + 192;
export const TEXT_ROOM = 832;

const LEAST_ORDER = 6;
const LARGEST_ORDER = 31;
const PAGE = 65536;

/** Whether the engine stores the low octets of such a number first, as the memory always does. */
export const LITTLE = new Uint8Array(Uint32Array.of(1).buffer)[0] === 1;

/**
 * The memory as bytes, as numbers of 32 and 64 bits at any place, and as an array of signed 32-bit
 * numbers, which is faster to write. All are made anew when the memory grows.
 */
export let bytes = new Uint8Array(library.memory.buffer);
export let view = new DataView(library.memory.buffer);
export let words = new Int32Array(library.memory.buffer);

/**
 * The bits that are 1 in any of these bytes, from this place on, a multiple of 4. They are read
 * four at a time.
 */
export function bitsOf(place, length) {
  const fours = words;
  const from = place >>> 2;
  const end = (place + length) >>> 2;
  let bits = 0;
  for (let i = from; i < end; i += 1) bits |= fours[i];
  for (let i = 4 * end; i < place + length; i += 1) bits |= bytes[i];
  return bits;
}

/* Free blocks by order: a block of order k has 2^k bytes, and its place is a multiple of that. */
const free = Array.from({ length: LARGEST_ORDER + 1 }, () => new Set());
let end = 0;

const orderOf = (length) => Math.max(LEAST_ORDER, 32 - Math.clz32(length - 1));

/** Frees the block at this place, and merges it with its neighbour as long as that is free too. */
function putBack(place, order) {
  while (order < LARGEST_ORDER) {
    const size = 2 ** order;
    const low = place % (2 * size) === 0;
    if (!free[order].delete(low ? place + size : place - size)) break;
    if (!low) place -= size;
    order += 1;
  }
  free[order].add(place);
}

/** Frees the memory from the last known place to this one, in the largest blocks. */
function addUpTo(limit) {
  while (end < limit) {
    let order = LEAST_ORDER;
    while (
      order < LARGEST_ORDER && end % 2 ** (order + 1) === 0 && end + 2 ** (order + 1) <= limit
    ) {
      order += 1;
    }
    const place = end;
    end += 2 ** order;
    putBack(place, order);
  }
}

/**
 * Grows the memory so that there is a free block of this order, or throws a RangeError and changes
 * nothing.
 */
function grow(order) {
  const size = 2 ** order;
  const limit = Math.ceil(end / size) * size + size;
  try {
    library.memory.grow(Math.ceil((limit - end) / PAGE));
  } catch {
    throw new RangeError(`no memory for ${size} bytes more`);
  }
  bytes = new Uint8Array(library.memory.buffer);
  view = new DataView(library.memory.buffer);
  words = new Int32Array(library.memory.buffer);
  addUpTo(bytes.length);
}

/**
 * A place for this many bytes, which nothing else uses until it is given back. RangeError if there
 * is no memory.
 */
export function take(length) {
  if (length > 2 ** LARGEST_ORDER) throw new RangeError(`no memory for ${length} bytes`);
  const order = orderOf(length);
  let from = order;
  while (from <= LARGEST_ORDER && free[from].size === 0) from += 1;
  if (from > LARGEST_ORDER) {
    grow(order);
    for (from = order; free[from].size === 0; ) from += 1;
  }
  const place = free[from].values().next().value;
  free[from].delete(place);
  for (; from > order; from -= 1) free[from - 1].add(place + 2 ** (from - 1));
  return place;
}

/** Gives back the place that take returned for this length. */
export function giveBack(place, length) {
  putBack(place, orderOf(length));
}

/** The number of bytes of the memory: those in use and those that wait for reuse. */
export const memorySize = () => bytes.length;

end = TEXT + TEXT_ROOM;
addUpTo(bytes.length);
