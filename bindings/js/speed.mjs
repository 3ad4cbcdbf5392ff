/**
 * Measures the package compared with four others for JavaScript, in one run: nanoseconds a call, or a row
 * of a column.
 *
 *     node bindings/js/speed.mjs [SECONDS]
 *
 * Each figure is the least of several rounds, in which the calls of a row take turns; SECONDS is
 * for how long a row is measured, 1 where it is not given. It needs the package in bindings/out/js;
 * packages of Debian that are not here are left out, with a line that says so.
 */
import ipnetwork from './test/package.mjs';
import { Random } from './test/random.mjs';
import { missing, readers } from './others.mjs';

const { AddressColumn, AddressSet, IpAddress, IpNetwork, NetworkColumn, PrefixTable } = ipnetwork;
const seconds = Number(process.argv[2] ?? 1);
const random = new Random(11);
let kept = 0;

/** The least time of each of these calls, of so many rows, in nanoseconds a row. */
function measure(calls, rows) {
  const least = calls.map(() => Infinity);
  const end = performance.now() + 1000 * seconds;
  for (let round = 0; round < 5 || performance.now() < end; round += 1) {
    calls.forEach((call, which) => {
      if (call === undefined) return;
      const began = process.hrtime.bigint();
      call();
      least[which] = Math.min(least[which], Number(process.hrtime.bigint() - began) / rows);
    });
  }
  return least;
}

const figure = (time) => (
  time === Infinity ? '' : time < 100 ? time.toFixed(1) : Math.round(time).toLocaleString('en')
);
const row = (name, times) => console.log(`| ${[name, ...times.map(figure)].join(' | ')} |`);

const COUNT = 1000;
const octet = () => random.below(256);
const word = () => (random.below(5) < 2 ? 0 : random.below(65536)).toString(16);
const any = () => random.below(65536).toString(16);
const four = () => `${octet()}.${octet()}.${octet()}.${octet()}`;
const six = () => Array.from({ length: 8 }, word).join(':');
const fours = Array.from({ length: COUNT }, () => `${four()}/${random.below(33)}`);
const sixes = Array.from(
  { length: COUNT }, () => String(IpNetwork.parse(`${six()}/${random.below(129)}`)),
);

if (missing.length > 0) {
  console.log(`Left out, since they are not here: ${missing.join(' ')} (packages of Debian)`);
}
const others = missing.length > 0 ? [] : readers();
const names = ['Call', 'Here', ...others.map(({ name }) => name)];
console.log(`| ${names.join(' | ')} |\n|${names.map(() => '---').join('|')}|`);

/** A call of each package on each text; undefined for one that refuses such texts. */
function reading(texts) {
  const each = (read) => () => {
    for (const text of texts) kept += read(text) === undefined ? 1 : 0;
  };
  return [each(IpNetwork.parse), ...others.map(({ read }) => {
    try {
      read(texts[0]);
      return each(read);
    } catch {
      return undefined;
    }
  })];
}
row('read an IPv4 network', measure(reading(fours), COUNT));
row('read an IPv6 network', measure(reading(sixes), COUNT));

/* Membership of values that are read before, by the calls of packages that have one. */
const [ipaddr] = others.map(({ read }) => read);
for (const [family, texts, address] of [['IPv4', fours, four], ['IPv6', sixes, six]]) {
  const members = texts.map((text, at) => (
    at % 2 === 0 ? text.split('/')[0] : String(IpAddress.parse(address()))
  ));
  const networks = texts.map(IpNetwork.parse);
  const addresses = members.map(IpAddress.parse);
  const theirs = others.length > 0 ? texts.map((text) => ipaddr(text)) : [];
  const theirAddresses = others.length > 0 ? members.map(
    (text) => ipaddr(`${text}/${family === 'IPv4' ? 32 : 128}`)[0]
  ) : [];
  const ask = () => {
    for (let i = 0; i < COUNT; i += 1) if (networks[i].contains(addresses[i])) kept += 1;
  };
  const match = () => {
    for (let i = 0; i < COUNT; i += 1) if (theirAddresses[i].match(theirs[i])) kept += 1;
  };
  row(
    `\`contains\` of values, ${family}`,
    measure([ask, others.length > 0 ? match : undefined], COUNT),
  );
  row(
    `a network printed, ${family}`,
    measure([() => networks.forEach((network) => { kept += network.toString().length; })], COUNT),
  );
}

/* Columns of 8,192 rows, and a set and a table of 10,000 networks; half of the addresses lie
 * in one. */
const ROWS = 8192;
for (const [family, address, bits] of [
  ['IPv4', four, [20, 8]], ['IPv6', () => `2001:db8:${any()}:${any()}::${any()}`, [48, 16]],
]) {
  const networks = Array.from(
    { length: 10_000 },
    () => IpNetwork.parse(`${address()}/${bits[0] + random.below(bits[1] + 1)}`),
  );
  const texts = Array.from({ length: ROWS }, (_, at) => String(at % 2 === 0
    ? networks[random.below(networks.length)].nth(random.below(2)) ?? IpAddress.parse(address())
    : IpAddress.parse(address())));
  const column = AddressColumn.read(texts);
  const set = new AddressSet(networks);
  const table = new PrefixTable(networks.map((network, at) => [network, at]));
  const addresses = [...column];
  row(
    `\`AddressColumn.read\`, a row, ${family}`,
    measure([() => { kept += AddressColumn.read(texts).refused; }], ROWS),
  );
  row(
    `a set of 10,000 asked by a column of addresses, a row, ${family}`,
    measure([() => { kept += set.containsColumn(column)[0]; }], ROWS),
  );
  row(
    `the same by a column of texts, ${family}`,
    measure([() => { kept += set.containsColumn(texts)[0]; }], ROWS),
  );
  row(
    `the same, one address in each call, ${family}`,
    measure([() => { for (const each of addresses) if (set.contains(each)) kept += 1; }], ROWS),
  );
  row(
    `a table of 10,000 asked by a column, a row, ${family}`,
    measure([() => { kept += table.lookupColumn(column)[0] ?? 0; }], ROWS),
  );
  const lines = networks.map(String);
  row(
    `\`NetworkColumn.read\`, a row, ${family}`,
    measure([() => { kept += NetworkColumn.read(lines).refused; }], lines.length),
  );
  row(
    `a set of 10,000 made, a network, ${family}`,
    measure([() => { kept += new AddressSet(networks).blockCount; }], networks.length),
  );
}
if (kept === 0.5) console.log(kept);
