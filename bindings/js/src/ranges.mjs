import { SIZE, indexSize } from './library.mjs';
import { ANSWER, NUMBER, bytes, view } from './memory.mjs';
import { never } from './errors.mjs';
import { Resident } from './resident.mjs';
import { counted, withRoom } from './blocks.mjs';
import { eachChunkOf } from './columns.mjs';

/** `count` numbers of the library's size_t from this place on. */
const numbersAt = (place, count) => Uint32Array.from(
  { length: count }, (_, at) => view.getUint32(place + SIZE * at, true),
);

/**
 * Ranges of addresses of one family, with the place of the block that a search finds in each,
 * packed, as the library makes them from a table.
 */
class Ranges extends Resident {
  constructor(kind, ranges, rangeNumbers) {
    const count = ranges.length / kind.struct;
    never(indexSize(count, 0, ANSWER, 0));
    const indexCount = counted();
    super(rangeNumbers.length + 4 * indexCount + ranges.length);
    this.kind = kind;
    this.ranges = ranges;
    this.rangeNumbers = rangeNumbers;
    this.count = count;
    this.indexCount = indexCount;
  }

  /** The places come first, then the index, and then the ranges. */
  write(place) {
    const index = place + this.rangeNumbers.length;
    const ranges = index + 4 * this.indexCount;
    bytes.set(this.rangeNumbers, place);
    bytes.set(this.ranges, ranges);
    never(this.kind.tableIndexMake(ranges, 0, this.count, 0, index, 0, this.indexCount, 0));
  }

  /** The place of the longest block with the address at this place, or -1. */
  find(address) {
    const { start, kind, count, indexCount } = this;
    const index = start + SIZE * count;
    const fault = kind.rangesFind(
      index + 4 * indexCount, 0, count, 0, start, 0, count, 0, index, 0, indexCount, 0,
      address, 0, NUMBER, 0,
    );
    return fault === 0 ? view.getUint32(NUMBER, true) : -1;
  }

  /** For each of these packed addresses the value that belongs to that block, or another one. */
  findColumn(packed, values, none) {
    const { kind, count, indexCount } = this;
    const found = new Array(packed.length / kind.octets);
    if (found.length === 0) return found;
    const { start } = this;
    const index = start + SIZE * count;
    const ask = (addresses, length, first) => withRoom(length * (SIZE + 1), (room) => {
      const faults = room + SIZE * length;
      never(kind.rangesFindColumn(
        index + 4 * indexCount, 0, count, 0, start, 0, count, 0, index, 0, indexCount, 0,
        addresses, 0, length, 0, room, 0, length, 0, faults, 0, length, 0,
      ));
      const [places, refused] = [view, bytes];
      for (let i = 0; i < length; i += 1) {
        found[first + i] = refused[faults + i] === 0
          ? values[places.getUint32(room + SIZE * i, true)] : none;
      }
    });
    eachChunkOf(packed, kind, ask);
    return found;
  }

  /** Frees its memory. There are no ranges after that. */
  free() {
    this.leave();
    this.ranges = this.rangeNumbers = new Uint8Array(0);
    this.count = 0;
  }
}

/**
 * The table of these packed networks: its blocks, packed, the number of the network of each, and
 * the ranges by which the longest one is found, and of equal ones the last.
 */
export function tableOf(kind, packed) {
  const { struct } = kind;
  const count = packed.length / struct;
  never(indexSize(count, 0, ANSWER, 0));
  const indexCount = counted();
  return withRoom((3 * SIZE + 4 * struct) * count + 4 * indexCount, (numbers) => {
    const places = numbers + SIZE * count;
    const index = places + 2 * SIZE * count;
    const networks = index + 4 * indexCount;
    const blocks = networks + struct * count;
    const ranges = blocks + struct * count;
    bytes.set(packed, networks);
    never(kind.tableMake(networks, 0, count, 0, blocks, 0, count, 0, numbers, 0, count, 0));
    never(kind.tableIndexMake(blocks, 0, count, 0, index, 0, indexCount, 0));
    never(kind.rangesMake(
      blocks, 0, count, 0, index, 0, indexCount, 0, ranges, 0, 2 * count, 0, places, 0, 2 * count, 0, ANSWER, 0,
    ));
    const made = counted();
    return {
      blocks: bytes.slice(blocks, ranges),
      numbers: numbersAt(numbers, count),
      ranges: new Ranges(
        kind, bytes.slice(ranges, ranges + struct * made), bytes.slice(places, places + SIZE * made),
      ),
    };
  });
}
