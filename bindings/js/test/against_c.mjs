/**
 * Compares the package with the library for C, byte for byte.
 *
 *     node against_c.mjs PROGRAM [ROWS]
 *
 * PROGRAM is answers.c, compiled; ROWS is how many random and mutated texts, 100,000 where it is
 * not given.
 */
import { spawnSync } from 'node:child_process';
import ipnetwork from './package.mjs';
import { Random } from './random.mjs';

const {
  AddressColumn, AddressSet, IpAddress, IpNetwork, Ipv4Network, Ipv6Network, NetworkColumn,
  PrefixTable, summarizeRange,
} = ipnetwork;
const [program, rows = '100000'] = process.argv.slice(2);
const WINDOW = 64;
const FAULTS = { format: 1, address: 2, prefix: 3 };

const random = new Random(52);
const texts = Array.from({ length: Number(rows) }, () => random.text());

/** The value that a call reads, or the number of its fault. */
function read(call, text) {
  try {
    return call(text);
  } catch (error) {
    if (FAULTS[error.code] === undefined || error.input !== text) throw error;
    return FAULTS[error.code];
  }
}

const flag = (answer) => (answer ? 1 : 0);

function one(network, window) {
  const parts = [network, network.first, network.last, network.mask, network.size.toString(16)];
  const member = network.nth(5);
  if (member !== undefined) parts.push(member);
  const width = network.family === 4 ? 32 : 128;
  if (network.prefix + 2 <= width) parts.push(network.subnetAt(network.prefix + 2, 3n));
  const before = window.at(-1);
  if (before !== undefined) {
    parts.push(
      flag(before.contains(network.address)), flag(network.isSubnetOf(before)),
      flag(before.isSubnetOf(network)),
    );
    parts.push(flag(before.overlaps(network)), before.compare(network));
  }
  window.push(network);
  return parts.map((part) => ` ${part}`).join('');
}

function answer(text, windows) {
  const four = read(Ipv4Network.parse, text);
  const six = read(Ipv6Network.parse, text);
  const either = read(IpNetwork.parse, text);
  const address = read(IpAddress.parse, text);
  const part = (value, say) => (typeof value === 'number' ? `${value}` : `0${say(value)}`);
  return [part(
    four, (network) => one(network, windows[0]),
  ), part(six, (network) => one(network, windows[1])),
    part(
      either, (network) => ` ${network.family}`,
    ), part(address, (value) => ` ${value}`)].join(' ');
}

function lists(window, lines) {
  const list = (name, blocks) => lines.push([name, ...blocks].join(' '));
  const sets = [0, 1].map(
    (half) => new AddressSet(window.filter((_, index) => index % 2 === half))
  );
  sets.forEach((set) => list('set', set.blocks()));
  list('union', sets[0].union(sets[1]).blocks());
  list('intersection', sets[0].intersection(sets[1]).blocks());
  list('difference', sets[0].difference(sets[1]).blocks());
  const table = new PrefixTable(window.map((network, index) => [network, index]));
  const ends = window.map((network) => network.last);
  const asked = ends.flatMap((end) => [flag(sets[0].contains(end)), table.lookup(end).value]);
  const column = AddressColumn.read(ends.map(String));
  const answers = sets[0].containsColumn(column);
  const found = table.lookupColumn(column);
  found.forEach((value, row) => {
    if (value !== asked[2 * row + 1] || answers[row] !== asked[2 * row]) {
      throw new Error(`the column differs at ${row}`);
    }
  });
  list('asked', asked);
  if (window.length > 1 && window[0].first.compare(window[1].last) <= 0) {
    list('range', summarizeRange(window[0].first, window[1].last));
  }
  window.length = 0;
}

/** The columns say of each row what a call by itself says. */
function columns() {
  const networks = NetworkColumn.read(texts);
  const printed = networks.toStrings();
  const addresses = AddressColumn.read(texts);
  texts.forEach((text, row) => {
    const network = read(IpNetwork.parse, text);
    const good = typeof network !== 'number';
    const same = (
      good ? String(network) : undefined
    ) === printed[row] && FAULTS[networks.codeAt(row)] === (good ? undefined : network)
      && (networks.at(row)?.toString() === printed[row]);
    if (!same || addresses.at(row)?.toString() !== IpAddress.tryParse(text)?.toString()) {
      throw new Error(`the column differs of ${JSON.stringify(text)}`);
    }
  });
}

const input = texts.map((text) => Buffer.from(text, 'utf8').toString('hex')).join('\n') + '\n';
const run = spawnSync(program, { input, maxBuffer: 2 ** 31 - 1 });
if (run.status !== 0) throw new Error(`${program} failed: ${run.error ?? run.stderr}`);
const wanted = run.stdout.toString('latin1').split('\n');

const lines = [];
const windows = [[], []];
texts.forEach((text, row) => {
  lines.push(answer(text, windows));
  if ((row + 1) % WINDOW === 0) windows.forEach((window) => lists(window, lines));
});
lines.push('');
lines.forEach((line, at) => {
  if (line !== wanted[at]) {
    throw new Error(`line ${at}:\n  the package ${line}\n  C           ${wanted[at]}`);
  }
});
if (lines.length !== wanted.length) {
  throw new Error(`${lines.length} lines, and ${wanted.length} of C`);
}
columns();
const accepted = texts.filter((text) => IpNetwork.tryParse(text) !== undefined).length;
console.log(
  `JavaScript: ${texts.length} texts, ${accepted} of them networks: ${lines.length} lines as in C`
);
