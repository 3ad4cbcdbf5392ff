/** Sets, tables and columns, compared with a table of one byte for each address of a small network. */
import assert from 'node:assert/strict';
import test from 'node:test';
import ipnetwork from './package.mjs';
import { Random } from './random.mjs';

const {
  AddressColumn, AddressSet, IpNetwork, Ipv4Address, Ipv6Address, NetworkColumn, PrefixTable,
  aggregate, summarizeRange,
} = ipnetwork;

/* Two families: within 192.0.2.0/24 and within the last 256 addresses of 2001:db8::/32. */
const FAMILIES = [
  { width: 32, of: (host) => `192.0.2.${host}` },
  {
    width: 128,
    of: (host) => `2001:db8:ffff:ffff:ffff:ffff:ffff:ff${host.toString(16).padStart(2, '0')}`,
  },
];
const HOSTS = Array.from({ length: 256 }, (_, host) => host);

/** Random networks within both families, and for each family a byte for each address. */
function sample(random, count) {
  const networks = [];
  const has = FAMILIES.map(() => new Uint8Array(256));
  for (let i = 0; i < count; i += 1) {
    const which = random.below(2);
    const host = random.below(256);
    const bits = random.below(7);
    networks.push(`${FAMILIES[which].of(host)}/${FAMILIES[which].width - bits}`);
    const first = host - (host % 2 ** bits);
    has[which].fill(1, first, first + 2 ** bits);
  }
  return { networks, has };
}

/** A set has exactly the addresses of a table, in the fewest blocks. */
function same(set, has) {
  FAMILIES.forEach(({ of }, which) => {
    const addresses = HOSTS.map(of);
    assert.deepEqual([...set.containsColumn(addresses)], [...has[which]]);
    assert.deepEqual([...set.containsColumn(AddressColumn.read(addresses))], [...has[which]]);
    addresses.forEach(
      (address, host) => assert.equal(set.contains(address), has[which][host] === 1)
    );
  });
  const members = has.reduce((sum, each) => sum + each.reduce((a, b) => a + b), 0);
  assert.equal(set.size, BigInt(members));
  const blocks = [...set.blocks()];
  assert.equal(blocks.length, set.blockCount);
  assert.equal(blocks.length, has.reduce((sum, each) => sum + fewest(each), 0));
  blocks.forEach((block, at) => {
    assert.ok(block.equals(block.block));
    if (at > 0) assert.equal(blocks[at - 1].compare(block), -1);
    assert.ok(set.covers(block));
  });
}

/** The first and the last number of each run of a table's members. */
function runs(has) {
  const ends = [];
  has.forEach((member, host) => {
    if (member === 1 && has[host - 1] !== 1) ends.push([host]);
    if (member === 1 && has[host + 1] !== 1) ends.at(-1).push(host);
  });
  return ends;
}

/** How many blocks a table needs at the least: halves are joined as long as both are whole. */
function fewest(has) {
  const count = (from, size) => {
    const members = has.subarray(from, from + size).reduce((a, b) => a + b);
    if (members === 0) return 0;
    if (members === size) return 1;
    return count(from, size / 2) + count(from + size / 2, size / 2);
  };
  return count(0, 256);
}

test('sets and their operations', () => {
  const random = new Random(7);
  for (let round = 0; round < 150; round += 1) {
    const [one, other] = [sample(random, round % 9), sample(random, random.below(9))];
    const [first, second] = [
      new AddressSet(one.networks), new AddressSet(other.networks.map(IpNetwork.parse)),
    ];
    same(first, one.has);
    const joined = (join) => one.has.map(
      (each, which) => each.map((a, host) => join(a, other.has[which][host]))
    );
    same(first.union(second), joined((a, b) => a | b));
    same(first.intersection(second), joined((a, b) => a & b));
    same(first.difference(second), joined((a, b) => a & (1 - b)));
    same(first.symmetricDifference(second), joined((a, b) => a ^ b));
    const others = first.complement();
    assert.equal(others.size + first.size, 2n ** 32n + 2n ** 128n);
    assert.equal(others.intersection(first).size, 0n);
    assert.ok(others.complement().equals(first) && others.contains('8.8.8.8'));
    assert.deepEqual([...first].map(String), first.toJSON());
    assert.deepEqual(
      Array.from(first.ranges(), ({ first: from, last }) => `${from} ${last}`),
      one.has.flatMap((each, which) => runs(each).map(
        (ends) => ends.map(FAMILIES[which].of).join(' '),
      )).map((text) => text.split(' ').map((each) => `${IpNetwork.parse(each).first}`).join(' ')),
    );
    assert.ok(first.union(second).equals(second.union(first)));
    assert.equal(
      first.equals(second),
      first.difference(second).size === 0n && second.difference(first).size === 0n,
    );
    assert.deepEqual(aggregate(one.networks).map(String), first.toJSON());
    for (const text of other.networks) {
      const network = IpNetwork.parse(text);
      const all = Array.from(network).every((address) => first.contains(address));
      assert.equal(first.covers(text), all, text);
    }
  }
});

/** A random number of so many bits, many of them all 0 or all 1. */
function numberOf(random, bits) {
  let number = 0n;
  for (let i = 0; i < bits; i += 1) number = (number << 1n) | BigInt(random.below(2));
  const kind = random.below(12);
  return kind === 0 ? 0n : kind === 1 ? 2n ** BigInt(bits) - 1n : number;
}

test('large sets, close together and far apart, asked at and next to each end', () => {
  const random = new Random(12);
  let blocks = 0;
  for (let round = 0; round < 120; round += 1) {
    const width = round % 2 === 0 ? 32 : 128;
    const address = (number) => (
      width === 32 ? new Ipv4Address(Number(number)) : new Ipv6Address(number)
    );
    const most = 2n ** BigInt(width) - 1n;
    /* All networks but a few begin with the same bits. Every other set of IPv6 has networks that end
     * in the first 64 bits. */
    const end = round % 4 === 3 ? 64 : width;
    const common = random.below(end - 8);
    const base = numberOf(random, common) << BigInt(width - common);
    const networks = Array.from({ length: 1 + random.below(150) }, () => {
      const number = random.below(40) === 0 ? numberOf(random, width)
        : base + numberOf(random, width - common);
      const prefix = end - random.below(Math.min(end - common - 6, 20));
      return `${address(number)}/${random.below(3000) === 0 ? 1 : prefix}`;
    }).map(IpNetwork.parse);
    const set = new AddressSet(networks);
    const ends = networks.flatMap(({ first, last }) => [BigInt(first.number), BigInt(last.number)]);
    const asked = [0n, most, base, ...ends.flatMap((each) => [each - 1n, each, each + 1n])]
      .filter((number) => number >= 0n && number <= most).map(address);
    const isMember = (each) => networks.some((network) => network.contains(each));
    const wanted = asked.map((each) => (isMember(each) ? 1 : 0));
    assert.deepEqual([...set.containsColumn(AddressColumn.read(asked.map(String)))], wanted);
    assert.deepEqual(asked.map((each) => (set.contains(each) ? 1 : 0)), wanted);
    blocks += set.blockCount;
  }
  assert.ok(blocks > 120 * 25, `${blocks} blocks`);
});

test('tables, compared with a look at each network', () => {
  const random = new Random(8);
  for (let round = 0; round < 100; round += 1) {
    const { networks } = sample(random, round % 20);
    const table = new PrefixTable(networks.map((network, index) => [network, index]));
    const longest = (address) => networks.reduce((best, text, index) => {
      const network = IpNetwork.parse(text);
      if (!network.contains(address)) return best;
      return best === undefined || network.prefix >= IpNetwork.parse(
        networks[best]
      ).prefix ? index : best;
    }, undefined);
    for (const { of } of FAMILIES) {
      const addresses = HOSTS.filter((host) => host % 5 === round % 5).map(of);
      const wanted = addresses.map(longest);
      assert.deepEqual(addresses.map((address) => table.lookup(address)?.value), wanted);
      assert.deepEqual(table.lookupColumn(addresses), wanted);
      addresses.forEach((address, row) => {
        if (wanted[row] === undefined) return;
        assert.ok(
          table.lookup(address).network.equals(IpNetwork.parse(networks[wanted[row]]).block)
        );
      });
    }
    const blocks = new Map(
      networks.map((text, index) => [`${IpNetwork.parse(text).block}`, index])
    );
    assert.equal(table.size, blocks.size);
    blocks.forEach((index, text) => assert.equal(table.get(text), index));
    assert.deepEqual(new Map([...table].map(([network, value]) => [`${network}`, value])),
      new Map(
        [...blocks].sort(([one], [other]) => IpNetwork.parse(one).compare(IpNetwork.parse(other)))
      ));
    assert.ok(!table.has('192.0.2.0/23') && table.get('::/0') === undefined);
  }
});

test('a table of many networks, twice, in each other, or of all addresses', () => {
  const random = new Random(21);
  for (let round = 0; round < 40; round += 1) {
    const width = round % 2 === 0 ? 32 : 128;
    const most = 2n ** BigInt(width) - 1n;
    const address = (number) => (
      width === 32 ? new Ipv4Address(Number(number)) : new Ipv6Address(number)
    );
    const networks = Array.from({ length: 1 + random.below(200) }, () => {
      const prefix = random.below(4) === 0 ? random.below(width + 1) : width - random.below(9);
      const low = BigInt(random.below(64));
      return IpNetwork.parse(`${address(random.below(3) === 0 ? most - low : low)}/${prefix}`);
    });
    const table = new PrefixTable(networks.map((network, at) => [network, at]));
    const ends = networks.flatMap(({ first, last }) => [BigInt(first.number), BigInt(last.number)]);
    const asked = [0n, most, ...ends.flatMap((each) => [each - 1n, each, each + 1n])]
      .filter((number) => number >= 0n && number <= most).map(address);
    const wanted = asked.map((each) => networks.reduce((best, network, at) => (
      network.contains(each) && !(networks[best]?.prefix > network.prefix) ? at : best
    ), undefined));
    assert.deepEqual(asked.map((each) => table.lookup(each)?.value), wanted);
    assert.deepEqual(table.lookupColumn(asked.map(String)), wanted);
    const last = new Map(networks.map((network, at) => [String(network.block), at]));
    assert.equal(table.size, last.size);
    for (const network of networks) {
      assert.equal(table.get(network), last.get(String(network.block)));
      const longer = network.prefix < width ? `${network.first}/${network.prefix + 1}` : '::/0';
      assert.equal(table.has(longer), last.has(longer));
    }
    const entries = [...table].map(([network, value]) => [String(network), value]);
    assert.deepEqual(entries, [...last].sort(
      ([one], [other]) => IpNetwork.parse(one).compare(IpNetwork.parse(other))
    ));
  }
});

test('values of a table are kept as they are', () => {
  const value = { name: 'x' };
  const table = new PrefixTable(new Map([['10.0.0.0/8', value], ['10.0.0.0/9', undefined]]));
  assert.equal(table.lookup('10.200.0.1').value, value);
  assert.deepEqual(table.lookup('10.1.0.1').value, undefined);
  assert.ok(table.has('10.0.0.0/9'));
  assert.equal(table.lookup('11.0.0.0'), undefined);
});

test('columns', () => {
  const texts = [
    '10.1.9.32/16', 'x', '2001:DB8::1/064', '10.0.0.0/33', '1/2/3', '', 'é/8', '\ud800', '8.8.8.8',
  ];
  const column = NetworkColumn.read(texts);
  assert.deepEqual([column.length, column.refused], [9, 6]);
  assert.deepEqual(texts.map((_, row) => column.codeAt(row)),
    [
      undefined, 'address', undefined, 'prefix', 'format', 'address', 'address', 'address',
      undefined,
    ]);
  assert.deepEqual(
    column.toStrings(), ['10.1.9.32/16', undefined, '2001:db8::1/64', ...Array(5), '8.8.8.8/32'],
  );
  assert.deepEqual([...column].map(String), column.toStrings().map(String));
  assert.equal(column.at(9), undefined);
  assert.equal(column.at(-1), undefined);
  assert.throws(() => new AddressSet(column), {
    name: 'IpNetworkError', code: 'address', index: 1, input: 'x',
    message: /^no IP network at 1: "x": /,
  });
  const set = new AddressSet(NetworkColumn.read(['10.0.0.0/9', '10.128.0.0/9', '::1']));
  assert.deepEqual(set.toJSON(), ['10.0.0.0/8', '::1/128']);
  /* More rows than go through the memory at once, and rows that are long. */
  const many = Array.from({ length: 10000 }, (_, row) => (
    row % 1000 === 999 ? `10.0.0.0/${'0'.repeat(50000)}8` : `10.0.${row % 256}.0/24`
  ));
  const read = NetworkColumn.read(many);
  assert.equal(read.refused, 0);
  assert.deepEqual(read.toStrings(), many.map((text) => (text.length > 99 ? '10.0.0.0/8' : text)));
  assert.equal(
    AddressColumn.read(many.map((text) => text.split('/')[0])).at(5).toString(), '10.0.5.0',
  );
});

test('rows that name no address are refused, unless it is said what they are', () => {
  const texts = ['10.9.9.9', '9.9.9.9', ' 10.0.0.1', '::1', '10.0.0.1:443', '010.0.0.5', '::2'];
  const set = new AddressSet(['10.0.0.0/8', '::1']);
  const table = new PrefixTable([['10.0.0.0/8', 'four'], ['::1', 'six']]);
  for (const column of [texts, AddressColumn.read(texts)]) {
    for (const ask of [
      (options) => set.containsColumn(column, options),
      (options) => table.lookupColumn(column, options),
    ]) {
      for (const options of [undefined, {}, { invalid: 'raise' }]) {
        assert.throws(() => ask(options), {
          name: 'IpNetworkError', code: 'address', index: 2, input: ' 10.0.0.1',
          message: 'no IP address at 2: " 10.0.0.1"',
        });
      }
    }
    const answers = set.containsColumn(column, { invalid: false });
    assert.ok(answers instanceof Uint8Array);
    assert.deepEqual([...answers], [1, 0, 0, 1, 0, 0, 0]);
    assert.deepEqual(
      set.containsColumn(column, { invalid: 'null' }), [1, 0, null, 1, null, null, 0],
    );
    assert.deepEqual(table.lookupColumn(column, { invalid: false }), [
      'four', undefined, undefined, 'six', undefined, undefined, undefined,
    ]);
    assert.deepEqual(table.lookupColumn(column, { invalid: 'null' }), [
      'four', undefined, null, 'six', null, null, undefined,
    ]);
  }
  assert.deepEqual(set.containsColumn(['10.0.0.1'], { invalid: 'null' }), [1]);
  assert.deepEqual(table.lookupColumn([], { invalid: 'null' }), []);
  for (const invalid of [null, true, 'coerce', 0, '']) {
    assert.throws(
      () => set.containsColumn([], { invalid }), /^TypeError: options\.invalid must be /,
    );
  }
});

test('the ranges of a set', () => {
  const ranges = (networks) => Array.from(
    new AddressSet(networks).ranges(), ({ first, last }) => `${first} ${last}`,
  );
  assert.deepEqual(ranges([]), []);
  assert.deepEqual(
    ranges(['10.0.0.0/8', '11.0.0.0/9', '11.128.0.0/16', '192.0.2.0/32', '::/0']),
    ['10.0.0.0 11.128.255.255', '192.0.2.0 192.0.2.0', `:: ${'ffff:'.repeat(7)}ffff`],
  );
  /* The last address of one family does not go on in the other. */
  assert.deepEqual(
    ranges(['255.255.255.255', '::', '0.0.0.0']),
    ['0.0.0.0 0.0.0.0', '255.255.255.255 255.255.255.255', ':: ::'],
  );
  assert.deepEqual(new AddressSet().complement().toJSON(), ['0.0.0.0/0', '::/0']);
  assert.deepEqual(
    ranges(new AddressSet(['10.0.0.0/8', '::1']).complement()),
    ['0.0.0.0 9.255.255.255', '11.0.0.0 255.255.255.255', ':: ::',
      '::2 ffff:ffff:ffff:ffff:ffff:ffff:ffff:ffff'],
  );
});

test('ranges', () => {
  /* The blocks of Python's ipaddress.summarize_address_range. */
  assert.deepEqual(
    summarizeRange('192.0.2.0', '192.0.2.130').map(String),
    ['192.0.2.0/25', '192.0.2.128/31', '192.0.2.130/32'],
  );
  assert.deepEqual(
    summarizeRange('::', 'ffff:ffff:ffff:ffff:ffff:ffff:ffff:ffff').map(String), ['::/0'],
  );
  assert.equal(summarizeRange('0.0.0.1', '255.255.255.254').length, 62);
  assert.equal(summarizeRange('::1', 'ffff:ffff:ffff:ffff:ffff:ffff:ffff:fffe').length, 254);
  assert.throws(() => summarizeRange('10.0.0.1', '10.0.0.0'), { code: 'range' });
  assert.throws(() => summarizeRange('10.0.0.1', '::'), { code: 'range' });
});
