/**
 * IPv4-mapped addresses (RFC 4291, section 2.5.5.2): what they stand for, and sets, tables and
 * columns for which what is said of either form counts.
 */
import assert from 'node:assert/strict';
import { once } from 'node:events';
import { BlockList, connect, createServer } from 'node:net';
import test from 'node:test';
import ipnetwork from './package.mjs';
import { Random } from './random.mjs';

const {
  AddressColumn, AddressSet, IpAddress, IpNetwork, Ipv4Address, NetworkColumn, PrefixTable,
} = ipnetwork;

/* Addresses, and what they stand for; those of the second list stand for themselves. */
const MAPPED = [
  ['::ffff:129.144.52.38', '129.144.52.38'], ['0:0:0:0:0:FFFF:129.144.52.38', '129.144.52.38'],
  ['::ffff:7f00:1', '127.0.0.1'], ['::ffff:0:0', '0.0.0.0'],
  ['::ffff:ffff:ffff', '255.255.255.255'], ['::ffff:10.1.9.32', '10.1.9.32'],
];
const OTHERS = [
  '10.1.9.32', '0.0.0.0', '::', '::1', '::127.0.0.1', '::fffe:127.0.0.1', '::ffff:0:127.0.0.1',
  '::1:ffff:127.0.0.1', '64:ff9b::127.0.0.1', '2002:7f00:1::', 'ffff::ffff:127.0.0.1',
  '::fffe:ffff:ffff', '::1:0:0:0', '8000::ffff:127.0.0.1',
];

test('the address that one stands for', () => {
  for (const [text, wanted] of MAPPED) {
    const { unmapped } = IpAddress.parse(text);
    assert.ok(unmapped instanceof Ipv4Address, text);
    assert.equal(String(unmapped), wanted);
    assert.ok(unmapped.equals(IpAddress.parse(wanted)));
  }
  for (const text of OTHERS) {
    const address = IpAddress.parse(text);
    assert.equal(address.unmapped, address, text);
  }
});

test('a list of IPv4 networks has the peer of a server, where the set is mapped', async () => {
  const server = createServer().listen(0);
  await once(server, 'listening');
  const client = connect(server.address().port, '127.0.0.1');
  const [socket] = await once(server, 'connection');
  const peer = socket.remoteAddress;
  client.destroy();
  socket.destroy();
  server.close();
  assert.match(peer, /^(::ffff:)?127\.0\.0\.1$/);
  assert.ok(new AddressSet(['127.0.0.0/8'], { mapped: true }).contains(peer));
  assert.ok(new AddressSet(['127.0.0.0/8']).contains(IpAddress.parse(peer).unmapped));
});

/* A row for each address, and those that they stand for. */
const TEXTS = [...MAPPED.map(([text]) => text), ...OTHERS, ...MAPPED.map(([, text]) => text)];

test('an entry that has the IPv4-mapped address denies it, with the option too', () => {
  for (const entry of ['::ffff:10.0.0.0/104', '::ffff:0:0/96', '::/0', '10.0.0.0/8', '::/80']) {
    const set = new AddressSet([entry], { mapped: true });
    assert.ok(set.contains('::ffff:10.1.9.32'), entry);
    assert.deepEqual([...set.containsColumn(['::ffff:10.1.9.32'])], [1], entry);
    assert.ok(set.covers(entry), entry);
    assert.ok(set.covers('::ffff:10.1.9.32'), entry);
    const table = new PrefixTable([[entry, 'deny']], { mapped: true });
    assert.equal(table.lookup('::ffff:10.1.9.32').value, 'deny', entry);
    assert.deepEqual(table.lookupColumn(['::ffff:10.1.9.32']), ['deny'], entry);
  }
  /* An IPv4 address is asked as it is. */
  assert.ok(!new AddressSet(['::ffff:0:0/96'], { mapped: true }).contains('10.1.9.32'));
});

test('of a table the longest network of the IPv4 address counts first', () => {
  const table = new PrefixTable([
    ['10.0.0.0/8', 'four'], ['::ffff:10.1.0.0/112', 'six'], ['::ffff:0:0/96', 'wide'],
    ['11.0.0.0/8', undefined],
  ], { mapped: true });
  const asked = ['::ffff:10.1.2.3', '::ffff:11.1.2.3', '::ffff:12.1.2.3', '10.1.2.3', '::1'];
  const wanted = ['four', undefined, 'wide', 'four', undefined];
  assert.deepEqual(asked.map((text) => table.lookup(text)?.value), wanted);
  assert.deepEqual(table.lookupColumn(asked), wanted);
  assert.equal(String(table.lookup('::ffff:10.1.2.3').network), '10.0.0.0/8');
  assert.equal(String(table.lookup('::ffff:11.1.2.3').network), '11.0.0.0/8');
  assert.equal(String(table.lookup('::ffff:12.1.2.3').network), '::ffff:0.0.0.0/96');
  assert.equal(table.get('::ffff:10.0.0.0/104'), undefined);
});

const MAPPED_FIRST = 0xffff00000000n;
const random = new Random(93);

/** The text of the address of a family with this number. */
const textOf = (family, number) => (family === 4
  ? [24n, 16n, 8n, 0n].map((shift) => (number >> shift) & 255n).join('.')
  : number.toString(16).padStart(32, '0').match(/.{4}/g).join(':'));

/** A network with its first and last number; those of IPv6 lie in, at and around ::ffff:0:0/96. */
function someNetwork() {
  const family = random.of([4, 6]);
  const width = family === 4 ? 32 : 128;
  const low = 0x0a000000n + BigInt(random.below(16));
  const number = family === 4 ? low : random.of([
    MAPPED_FIRST + low, MAPPED_FIRST + low, MAPPED_FIRST, MAPPED_FIRST - 1n, MAPPED_FIRST << 1n,
    MAPPED_FIRST + 0xffffffffn, low, 0x20010db8n << 96n,
  ]);
  const prefix = random.below(3) === 0 ? random.below(width + 1) : width - random.below(5);
  const size = 1n << BigInt(width - prefix);
  const first = number & -size;
  const text = `${textOf(family, first)}/${prefix}`;
  return { family, prefix, first, last: first + size - 1n, text };
}

/** A network with the numbers of the IPv6 form of its addresses. */
const asSix = ({ family, first, last }) => (
  family === 4 ? { first: first + MAPPED_FIRST, last: last + MAPPED_FIRST } : { first, last }
);

const has = ({ first, last }, number) => first <= number && number <= last;

/** Whether each number from first to last is in one of these ranges. */
function areIn(ranges, { first, last }) {
  let next = first;
  for (const range of [...ranges].sort((one, other) => (one.first < other.first ? -1 : 1))) {
    if (has(range, next)) next = range.last + 1n;
  }
  return next > last;
}

/** The longest of these networks with a number, of equal ones the last. */
const longestOf = (networks, number) => networks.reduce((best, network) => (
  has(network, number) && network.prefix >= (best?.prefix ?? 0) ? network : best
), undefined);

/** Compares a mapped set and table with the sentence of the page, and with Node's BlockList. */
function compare(networks) {
  const texts = networks.map(({ text }) => text);
  const entries = texts.map((text, place) => [text, place]);
  const set = new AddressSet(texts, { mapped: true });
  const table = new PrefixTable(entries, { mapped: true });
  const plain = [new AddressSet(texts), new PrefixTable(entries)];
  const blocked = new BlockList();
  networks.forEach(({ family, first, prefix }) => (
    blocked.addSubnet(textOf(family, first), prefix, `ipv${family}`)
  ));
  const [fours, sixes] = [4, 6].map((family) => networks.filter((each) => each.family === family));
  const numbers = networks.map(asSix)
    .flatMap(({ first, last }) => [first - 1n, first, last, last + 1n])
    .filter((number) => number >= 0n && number < 1n << 128n);
  const asked = numbers.map((number) => textOf(6, number));
  const found = numbers.map((number) => (
    (number >> 32n === 0xffffn ? longestOf(fours, number - MAPPED_FIRST) : undefined)
      ?? longestOf(sixes, number)
  ));
  const members = found.map((network) => (network === undefined ? 0 : 1));
  assert.deepEqual(asked.map((text) => (blocked.check(text, 'ipv6') ? 1 : 0)), members);
  assert.deepEqual(asked.map((text) => (set.contains(text) ? 1 : 0)), members, `${texts}`);
  assert.deepEqual([...set.containsColumn(asked)], members, `${texts}`);
  const values = found.map((network) => (network ? networks.indexOf(network) : undefined));
  assert.deepEqual(asked.map((text) => table.lookup(text)?.value), values, `${texts}`);
  assert.deepEqual(table.lookupColumn(asked), values, `${texts}`);
  const inner = [...networks, ...Array.from({ length: 8 }, someNetwork)];
  const covered = inner.map((network) => (
    network.family === 4 ? areIn(fours, network) : areIn(networks.map(asSix), network)
  ));
  assert.deepEqual(inner.map(({ text }) => set.covers(text)), covered, `${texts}`);
  /* The option only adds. */
  asked.forEach((text, at) => {
    assert.ok(members[at] || !(plain[0].contains(text) || plain[1].lookup(text)), text);
  });
  inner.forEach(({ text }, at) => assert.ok(covered[at] || !plain[0].covers(text), text));
  const four = inner.filter(({ family }) => family === 4).map(({ first }) => textOf(4, first));
  assert.deepEqual([...set.containsColumn(four)], [...plain[0].containsColumn(four)]);
  assert.deepEqual(table.lookupColumn(four), plain[1].lookupColumn(four));
  return [members, covered.map(Number)];
}

test('random sets and tables, by the sentence of the page', () => {
  const seen = [[0, 0], [0, 0]];
  for (let round = 0; round < 2000; round += 1) {
    const answers = compare(Array.from({ length: random.below(9) }, someNetwork));
    answers.forEach((each, kind) => each.forEach((answer) => { seen[kind][answer] += 1; }));
  }
  assert.ok(Math.min(...seen.flat()) > 1000, `${seen}`);
});

test('what is denied in one form is taken away in both', () => {
  const everything = new AddressSet(['0.0.0.0/0', '::/0']);
  const denied = new AddressSet(['10.0.0.0/8'], { mapped: true });
  const peer = '::ffff:10.0.0.1';
  assert.ok(denied.contains(peer));
  for (const allowed of [everything.difference(denied), denied.complement()]) {
    assert.ok(allowed.mapped && !allowed.contains(peer) && !allowed.covers(peer));
    assert.deepEqual([...allowed.containsColumn([peer, '::ffff:11.0.0.1', '::1'])], [0, 1, 1]);
    assert.ok(![...allowed].some((network) => network.contains(peer)));
  }
  assert.deepEqual(denied.intersection(new AddressSet(['::/0'])).toJSON(), [
    '::ffff:10.0.0.0/104',
  ]);
  assert.deepEqual(new AddressSet().union(denied).toJSON(), ['10.0.0.0/8']);
  const six = new AddressSet(['::ffff:10.0.0.0/104']);
  assert.equal(six.difference(denied).size, 0n);
  assert.ok(!six.equals(denied) && !denied.equals(denied.union(six)));
  /* Without the option the forms are two addresses. */
  const plain = new AddressSet(['10.0.0.0/8']);
  assert.ok(everything.difference(plain).contains(peer) && plain.complement().contains(peer));
  assert.deepEqual(six.difference(plain).toJSON(), six.toJSON());
  assert.equal(plain.intersection(six).size, 0n);
});

/* For each operation whether an address is in the result, by whether it is in the sets. */
const OPERATIONS = {
  union: (one, other) => one || other,
  intersection: (one, other) => one && other,
  difference: (one, other) => one && !other,
  symmetricDifference: (one, other) => one !== other,
  complement: (one) => !one,
};

/** Compares the operations on two sets, given as networks, with arithmetic on their numbers. */
function compareOperations(networks, options, seen) {
  const sets = networks.map(
    (each, which) => new AddressSet(each.map(({ text }) => text), { mapped: options[which] }),
  );
  const all = networks.flat();
  const sixes = [...all.map(asSix), ...all].flatMap(({ first, last }) => [
    first - 1n, first, (first + last) >> 1n, last, last + 1n,
  ]).filter((number) => number >= 0n && number < 1n << 128n);
  const fours = sixes.filter((number) => number >> 32n === 0xffffn)
    .map((number) => number - MAPPED_FIRST);
  const isMember = (family, number) => networks.map(
    (each) => each.some((network) => network.family === family && has(network, number)),
  );
  for (const [name, rule] of Object.entries(OPERATIONS)) {
    const made = sets[0][name](sets[1]);
    const mapped = options[0] || (name !== 'complement' && options[1]);
    assert.equal(made.mapped, mapped);
    const wanted = fours.map((number) => Number(rule(...isMember(4, number))));
    wanted.push(...sixes.map((number) => {
      const six = isMember(6, number);
      if (!mapped || number >> 32n !== 0xffffn) return Number(rule(...six));
      const four = isMember(4, number - MAPPED_FIRST);
      const either = six.map((member, which) => member || four[which]);
      return Number(rule(...either) || rule(...four));
    }));
    const texts = [
      ...fours.map((number) => textOf(4, number)), ...sixes.map((number) => textOf(6, number)),
    ];
    const asked = `${name} of ${sets.map((set) => `${[...set]} ${set.mapped}`).join(' and ')}`;
    assert.deepEqual([...made.containsColumn(texts)], wanted, asked);
    assert.deepEqual(texts.map((text) => Number(made.contains(text))), wanted, asked);
    assert.deepEqual(texts.map((text) => Number(made.covers(text))), wanted, asked);
    wanted.forEach((answer) => { seen[name][answer] += 1; });
  }
}

test('random operations, by arithmetic on the numbers of addresses', () => {
  const seen = Object.fromEntries(Object.keys(OPERATIONS).map((name) => [name, [0, 0]]));
  const some = () => Array.from({ length: random.below(5) }, someNetwork);
  for (let round = 0; round < 1000; round += 1) {
    compareOperations([some(), some()], [round % 2 === 1, round % 4 > 1], seen);
  }
  const least = Math.min(...Object.values(seen).flat());
  assert.ok(least > 1000, JSON.stringify(seen));
});

test('what is made of a mapped set is mapped', () => {
  const list = ['127.0.0.0/8', '10.0.0.0/8', '::1'];
  const [plain, set] = [new AddressSet(list), new AddressSet(list, { mapped: true })];
  assert.deepEqual([plain.mapped, set.mapped, set.complement().mapped], [false, true, true]);
  for (const name of ['union', 'intersection', 'difference']) {
    assert.deepEqual(
      [[plain, plain], [plain, set], [set, plain], [set, set]].map(
        ([one, other]) => one[name](other).mapped
      ),
      [false, true, true, true],
    );
  }
  assert.ok(set.equals(plain));
  assert.ok(set.union(plain).contains('::ffff:10.1.9.32'));
  assert.deepEqual(set.toJSON(), plain.toJSON());
  set.free();
  assert.throws(() => set.contains('::ffff:10.1.9.32'), { code: 'freed' });
});

test('columns whose IPv4-mapped addresses are replaced', () => {
  const texts = [...TEXTS, 'x'];
  const column = AddressColumn.read(texts, { unmapped: true });
  const wanted = TEXTS.map((text) => String(IpAddress.parse(text).unmapped));
  assert.deepEqual(Array.from(column, String), [...wanted, 'undefined']);
  assert.deepEqual(
    [column.length, column.refused, column.codeAt(TEXTS.length)], [texts.length, 1, 'address'],
  );
  assert.throws(() => new AddressSet().containsColumn(column), { index: TEXTS.length, input: 'x' });
  assert.equal(String(AddressColumn.read(TEXTS).at(0)), '::ffff:129.144.52.38');
  /* Then only the IPv4 address is asked; of a column as it is read, both forms. */
  const set = new AddressSet(['::ffff:129.144.0.0/112', '127.0.0.0/8'], { mapped: true });
  const asked = ['::ffff:129.144.52.38', '::ffff:127.0.0.1'];
  assert.deepEqual([...set.containsColumn(AddressColumn.read(asked, { unmapped: true }))], [0, 1]);
  const read = AddressColumn.read(asked);
  assert.deepEqual([...set.containsColumn(read)], [1, 1]);
  assert.equal(String(read.at(0)), '::ffff:129.144.52.38');
  const many = Array.from({ length: 10_000 }, (_, row) => (
    [`::ffff:10.0.${row & 255}.1`, `10.0.${row & 255}.1`, `::${row}`][row % 3]
  ));
  assert.deepEqual(
    Array.from(AddressColumn.read(many, { unmapped: true }), String),
    many.map((text) => String(IpAddress.parse(text.replace('::ffff:', '')))),
  );
});

test('options that are none', () => {
  const calls = [
    [(options) => new AddressSet([], options), 'mapped'],
    [(options) => new PrefixTable([], options), 'mapped'],
    [(options) => AddressColumn.read([], options), 'unmapped'],
    [(options) => new AddressSet().containsColumn([], options), 'invalid'],
    [(options) => new PrefixTable().lookupColumn([], options), 'invalid'],
  ];
  for (const [call, name] of calls) {
    for (const value of [null, true, 'mapped', 1]) {
      assert.throws(() => call(value), /^TypeError: options must be an object, not /);
    }
    const entries = [[name, true]];
    for (const value of [new Map(entries), [], entries, new URLSearchParams(entries)]) {
      assert.throws(() => call(value), /^TypeError: options must be an object whose property is /);
    }
    for (const value of [null, 1, 'yes', {}]) {
      const message = new RegExp(`^TypeError: options\\.${name} must be `);
      assert.throws(() => call({ [name]: value }), message);
    }
    for (const options of [undefined, {}, { [name]: undefined }, { [name]: false }]) call(options);
    /* A name that is misspelt would be as good as none, which lets someone in. */
    for (const other of ['maped', 'Mapped', 'mapped ', 'mapped', 'unmapped', 'invalid']) {
      if (other === name) continue;
      assert.throws(
        () => call({ [other]: true }),
        { name: 'TypeError', message: `options.${other} is no option here, only options.${name}` },
      );
      assert.throws(() => call({ [name]: false, [other]: true }), TypeError);
    }
  }
  assert.equal(NetworkColumn.read(['::ffff:10.0.0.0/104']).toStrings()[0], '::ffff:10.0.0.0/104');
});
