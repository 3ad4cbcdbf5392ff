// What the page asks of the package: every answer is the library's.
import {
  AddressSet,
  IpNetwork,
  IpNetworkError,
  Ipv4Address,
  Ipv6Address,
  NetworkColumn,
  PrefixTable,
  summarizeRange,
} from "../../bindings/out/js/index.mjs";

/** What the page shows of a network of the package, which is its `value`. */
function shown(value) {
  const { first, last } = value;
  return {
    value,
    family: value.family,
    prefix: value.prefix,
    text: value.toString(),
    block: value.block.toString(),
    first: first.toString(),
    last: last.toString(),
    mask: value.mask.toString(),
    size: value.size,
    octets: value.address.octets,
    number: BigInt(value.address.number),
    maskNumber: BigInt(value.mask.number),
    low: BigInt(first.number),
    high: BigInt(last.number),
  };
}

// An IPv4 address and a mask after it, and two addresses with a dash between them.
const MASKED = /^(\S+)\s+(\d+\.\d+\.\d+\.\d+)$/;
const RANGE = /^([^\s/-]+)\s*-\s*([^\s/-]+)$/;

// The text of a network as the package takes it.
const plain = (text) => text.replace(MASKED, "$1/$2");

/**
 * The `network` that a text names, the `range` of two addresses, or the `code` of the cause for
 * which it is refused.
 */
export function read(text) {
  try {
    const ends = RANGE.exec(text);
    if (ends !== null) {
      const blocks = summarizeRange(ends[1], ends[2]);
      const [first, last] = [blocks[0].first, blocks.at(-1).last];
      const texts = blocks.map(String);
      return { range: { first: `${first}`, last: `${last}`, texts, size: sizeOf(blocks) } };
    }
    return { network: shown(IpNetwork.parse(plain(text))) };
  } catch (error) {
    if (error instanceof IpNetworkError) {
      return { code: error.code };
    }
    throw error;
  }
}

/** How two networks relate as sets of addresses: same, inside, around or apart. */
export function relation(one, other) {
  return one.value.relationTo(other.value);
}

/** The canonical text of the address of a family that a BigInt means. */
export function addressText(family, number) {
  return String(family === 4 ? new Ipv4Address(Number(number)) : new Ipv6Address(number));
}

/** The block of this prefix length and number, from 0 on, within a network. */
export function part(network, prefix, number) {
  return shown(network.value.subnetAt(prefix, number));
}

/**
 * For each block the rows of the networks that lie in it; none if each has one network to itself,
 * which is so if there are as many blocks as networks, since no block is without one.
 */
function rowsOf(blocks, column, rowOf) {
  if (blocks.length === column.length - column.refused) {
    return [];
  }
  const rows = blocks.map(() => []);
  const table = new PrefixTable(blocks.map((block, index) => [block, index]));
  [...column].forEach((network, at) => {
    if (network !== undefined) {
      const found = rows[table.lookup(network.address).value];
      // The networks of a range come one after the other.
      if (found[found.length - 1] !== rowOf[at]) {
        found.push(rowOf[at]);
      }
    }
  });
  table.free();
  return rows;
}

/** The rows that name no network and no range, each with its cause. */
function refusedOf(column, rowOf, ranges) {
  const refused = [];
  for (let at = 0; at < column.length && refused.length < column.refused; at += 1) {
    const code = column.codeAt(at);
    if (code !== undefined) {
      refused.push({ row: rowOf[at], code });
    }
  }
  return ranges.length === 0 ? refused : [...refused, ...ranges].sort((a, b) => a.row - b.row);
}

/**
 * The texts of networks that entries stand for, the row of the entry of each, and the rows and
 * causes of ranges that are none.
 */
function expanded(entries) {
  const found = { texts: [], rowOf: [], refused: [] };
  entries.forEach((entry, row) => {
    const { code, range } = entry.includes("-") ? read(entry) : {};
    if (range === undefined && code !== undefined && RANGE.test(entry)) {
      found.refused.push({ row, code });
      return;
    }
    for (const text of range?.texts ?? [plain(entry)]) {
      found.texts.push(text);
      found.rowOf.push(row);
    }
  });
  return found;
}

/** The rows that have no address in common with a network. */
function apart(column, rowOf, network) {
  const rows = new Map();
  [...column].forEach((each, at) => {
    const isApart = each === undefined || !each.overlaps(network.value);
    rows.set(rowOf[at], isApart && rows.get(rowOf[at]) !== false);
  });
  return [...rows.keys()].filter((row) => rows.get(row));
}

/** The number of addresses of blocks that have none in common. */
function sizeOf(blocks) {
  return blocks.reduce((sum, block) => sum + block.size, 0n);
}

/** The blocks of IPv4, as the map takes them, and their size. */
function shownOfV4(blocks) {
  return {
    addresses: Uint32Array.from(blocks, (block) => block.address.number),
    prefixes: Uint8Array.from(blocks, (block) => block.prefix),
    size: sizeOf(blocks),
  };
}

/**
 * Reads the networks and ranges that entries name. `refused` has the row and the cause of each that
 * names none; `set` has the addresses of the others, `texts` its blocks; `joined` has of each block
 * that several rows make its text and these rows; `v4` and `v6` are what the set has of each
 * family; `apart` gives the rows that have no address in common with a network.
 */
export function readList(entries) {
  const { texts, rowOf, refused } = expanded(entries);
  const column = NetworkColumn.read(texts);
  const isNetwork = (network) => network !== undefined;
  const set = new AddressSet(column.refused > 0 ? [...column].filter(isNetwork) : column);
  const blocks = [...set.blocks()];
  const ofV4 = blocks.findIndex((block) => block.family === 6);
  const v4 = ofV4 < 0 ? blocks : blocks.slice(0, ofV4);
  const names = blocks.map(String);
  const joined = rowsOf(blocks, column, rowOf)
    .map((rows, index) => ({ text: names[index], rows }))
    .filter(({ rows }) => rows.length > 1);
  return {
    refused: refusedOf(column, rowOf, refused),
    set,
    apart: (network) => apart(column, rowOf, network),
    texts: names,
    joined,
    v4: shownOfV4(v4),
    v6: { size: sizeOf(blocks.slice(v4.length)) },
  };
}

function ends(block) {
  return { low: BigInt(block.first.number), high: BigInt(block.last.number) };
}

/**
 * What a list leaves free of a network: the fewest blocks, their size, and the parts in use; and
 * how a part of it is used.
 */
export function free(network, list) {
  const whole = new AddressSet([network.value]);
  const left = whole.difference(list.set);
  const used = whole.intersection(list.set);
  return {
    texts: left.toJSON(),
    size: left.size,
    used: [...used.blocks()].map(ends),
    useOf: ({ value }) => {
      const isUsed = used.covers(value);
      return left.covers(value) ? "free" : isUsed ? "in use" : "partly in use";
    },
  };
}

/** What two lists have: only the first, only the second, and both, each as texts and a size. */
export function compared(one, other) {
  const summary = (set) => ({ texts: set.toJSON(), size: set.size });
  return {
    first: summary(one.set.difference(other.set)),
    second: summary(other.set.difference(one.set)),
    both: summary(one.set.intersection(other.set)),
  };
}
