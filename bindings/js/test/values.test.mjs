/** What values are: frozen, equal by their texts, ordered, iterable. */
import assert from 'node:assert/strict';
import test from 'node:test';
import { inspect } from 'node:util';
import ipnetwork from './package.mjs';

const { IpAddress, IpNetwork, Ipv4Address, Ipv4Network, Ipv6Address, Ipv6Network } = ipnetwork;

test('values are frozen', () => {
  const { AddressColumn, AddressSet, NetworkColumn, PrefixTable } = ipnetwork;
  const values = [
    IpNetwork.parse('10.1.9.32/16'), IpNetwork.parse('::1/64'), IpAddress.parse('10.0.0.1'),
    new AddressSet(), new PrefixTable(), AddressColumn.read([]), NetworkColumn.read([]),
  ];
  for (const value of values) {
    assert.ok(Object.isFrozen(value));
    assert.throws(() => { value.more = 1; }, TypeError);
    assert.deepEqual(Object.keys(value), ['sent']);
  }
  assert.throws(() => { values[0].prefix = 8; }, TypeError);
});

test('the parts of networks', () => {
  /* The values of Python's ipaddress. */
  const four = IpNetwork.parse('10.1.9.32/16');
  assert.ok(four instanceof Ipv4Network && four instanceof IpNetwork);
  assert.deepEqual([four.family, four.prefix, four.size], [4, 16, 65536n]);
  assert.equal(`${four.address} ${four.first} ${four.last} ${four.mask} ${four.block}`,
    '10.1.9.32 10.1.0.0 10.1.255.255 255.255.0.0 10.1.0.0/16');
  const six = IpNetwork.parse('2001:db8::ff/120');
  assert.ok(six instanceof Ipv6Network && six.block instanceof Ipv6Network);
  assert.deepEqual([six.family, six.prefix, six.size], [6, 120, 256n]);
  assert.equal(`${six.address} ${six.first} ${six.last} ${six.mask} ${six.block}`,
    '2001:db8::ff 2001:db8:: 2001:db8::ff ffff:ffff:ffff:ffff:ffff:ffff:ffff:ff00 2001:db8::/120');
  assert.equal(IpNetwork.parse('0.0.0.0/0').size, 4294967296n);
  assert.equal(IpNetwork.parse('::/0').size, 340282366920938463463374607431768211456n);
  assert.equal(IpNetwork.parse('::/1').size, 170141183460469231731687303715884105728n);
  assert.equal(IpNetwork.parse('::1').size, 1n);
});

test('addresses as numbers and octets', () => {
  assert.equal(new Ipv4Address(167838208).toString(), '10.1.2.0');
  assert.equal(IpAddress.parse('255.255.255.255').number, 4294967295);
  assert.equal(
    new Ipv6Address(2n ** 128n - 1n).toString(), 'ffff:ffff:ffff:ffff:ffff:ffff:ffff:ffff',
  );
  assert.equal(IpAddress.parse('2001:db8::1').number, 42540766411282592856903984951653826561n);
  const octets = IpAddress.parse('2001:db8::1').octets;
  assert.deepEqual([...octets], [32, 1, 13, 184, 0, 0, 0, 0, 0, 0, 0, 0, 0, 0, 0, 1]);
  octets[0] = 9;
  assert.equal(IpAddress.fromOctets(octets).toString(), '901:db8::1');
  assert.equal(Ipv4Address.fromOctets(Uint8Array.of(10, 0, 0, 1)).toString(), '10.0.0.1');
  assert.throws(() => Ipv4Address.fromOctets(octets), RangeError);
  assert.throws(() => Ipv6Address.fromOctets(Uint8Array.of(10, 0, 0, 1)), RangeError);
  for (const number of [-1, 4294967296, 0.5, NaN, Infinity]) {
    assert.throws(() => new Ipv4Address(number), RangeError);
  }
  for (const number of [-1n, 2n ** 128n]) assert.throws(() => new Ipv6Address(number), RangeError);
  assert.throws(() => new Ipv4Address(1n), TypeError);
  assert.throws(() => new Ipv6Address(1), TypeError);
});

test('texts are keys', () => {
  const map = new Map([[`${IpNetwork.parse('10.0.0.0/008')}`, 1]]);
  assert.equal(map.get(String(IpNetwork.parse('10.0.0.0/255.0.0.0'))), 1);
  assert.equal(
    JSON.stringify({ at: IpNetwork.parse('2001:DB8::1/064') }), '{"at":"2001:db8::1/64"}',
  );
  assert.equal(inspect(IpNetwork.parse('10.1.9.32/16')), 'Ipv4Network(10.1.9.32/16)');
  assert.equal(inspect([IpAddress.parse('::1')]), '[ Ipv6Address(::1) ]');
  assert.equal('in ' + IpNetwork.parse('10.0.0.0/8'), 'in 10.0.0.0/8');
  assert.throws(() => IpNetwork.parse('9.0.0.0/8') < IpNetwork.parse('10.0.0.0/8'), /compare/);
  assert.throws(() => Number(IpAddress.parse('9.0.0.0')), /compare/);
});

test('no value becomes an empty object', () => {
  const { AddressColumn, AddressSet, NetworkColumn, PrefixTable } = ipnetwork;
  const texts = ['10.0.0.1', '-'];
  const values = [
    [IpNetwork.parse('10.1.9.32/16'), '"10.1.9.32/16"'], [IpAddress.parse('::1'), '"::1"'],
    [new AddressSet(['10.0.0.0/9', '10.128.0.0/9', '::1']), '["10.0.0.0/8","::1/128"]'],
    [new AddressSet(), '[]'],
    [new PrefixTable([['10.1.9.32/8', 5], ['::', [1]]]), '[["10.0.0.0/8",5],["::/128",[1]]]'],
    [AddressColumn.read(texts), '["10.0.0.1",null]'],
    [NetworkColumn.read(texts), '["10.0.0.1/32",null]'],
  ];
  for (const [value, json] of values) {
    assert.equal(JSON.stringify(value), json);
    for (const sent of [value, { value }, [value]]) {
      assert.throws(
        () => structuredClone(sent), { name: 'DataCloneError', message: /is sent as its text/ },
      );
    }
  }
});

test('what the console shows', () => {
  const { AddressColumn, AddressSet, NetworkColumn, PrefixTable } = ipnetwork;
  assert.equal(
    inspect(new AddressSet(['10.0.0.0/9', '10.128.0.0/9', '2001:db8::/32'])),
    'AddressSet(2) { 10.0.0.0/8, 2001:db8::/32 }',
  );
  assert.equal(inspect(new AddressSet()), 'AddressSet(0) {}');
  const many = Array.from({ length: 1000 }, (_, i) => `10.${i >> 8}.${i & 255}.1`);
  assert.equal(
    inspect(new AddressSet(many)),
    'AddressSet(1000) { 10.0.0.1/32, 10.0.1.1/32, 10.0.2.1/32, 10.0.3.1/32, 10.0.4.1/32, '
      + '... 995 more }',
  );
  assert.equal(
    inspect(new PrefixTable([['10.0.0.0/8', 'a'], ['::/0', { b: 1 }]])),
    "PrefixTable(2) { 10.0.0.0/8 => 'a', ::/0 => { b: 1 } }",
  );
  assert.equal(inspect(AddressColumn.read(['::1', 'x'])), 'AddressColumn(2) [ ::1, undefined ]');
  assert.equal(inspect([NetworkColumn.read(['::1'])]), '[ NetworkColumn(1) [ ::1/128 ] ]');
  const [set, table] = [new AddressSet(many), new PrefixTable()];
  set.free();
  table.free();
  assert.equal(inspect([set, table]), '[ AddressSet(freed), PrefixTable(freed) ]');
});

test('order and equality', () => {
  const texts = [
    '10.0.0.0/8', '10.0.0.0/16', '10.0.5.0/24', '9.255.255.255', '::/0', '::/1', 'ffff::',
    '::ffff:10.0.0.0/8',
  ];
  const sorted = texts.map(IpNetwork.parse).sort(IpNetwork.compare).map(String);
  assert.deepEqual(sorted, [
    '9.255.255.255/32', '10.0.0.0/8', '10.0.0.0/16', '10.0.5.0/24', '::/0', '::/1',
    '::ffff:10.0.0.0/8', 'ffff::/128',
  ]);
  const addresses = [
    '10.0.0.2', '9.255.255.255', '::', '10.0.0.1', 'ffff::',
  ].map(IpAddress.parse).sort(IpAddress.compare);
  assert.deepEqual(
    addresses.map(String), ['9.255.255.255', '10.0.0.1', '10.0.0.2', '::', 'ffff::'],
  );
  for (const one of texts.map(IpNetwork.parse)) {
    for (const other of texts.map(IpNetwork.parse)) {
      assert.equal(one.equals(other), `${one}` === `${other}`);
      assert.equal(one.compare(other) === 0, `${one}` === `${other}`);
      assert.equal(one.compare(other), 0 - other.compare(one));
    }
  }
  /* Whatever the memory has after the octets of the last address that was read. */
  for (const text of ['ffff:ffff:ffff:ffff::', '::', '0101:0101:0101::']) {
    const [one, other] = ['10.0.0.1', '10.0.0.1'].map(IpAddress.parse);
    IpAddress.parse(text);
    assert.equal(one.compare(other), 0);
    assert.equal(one.compare(IpAddress.parse('10.0.0.2')), -1);
  }
  assert.ok(!IpNetwork.parse('10.0.0.1/24').equals(IpNetwork.parse('10.0.0.0/24')));
  assert.ok(!IpAddress.parse('::ffff:10.0.0.1').equals(IpAddress.parse('10.0.0.1')));
});

test('relations', () => {
  const relation = (one, other) => IpNetwork.parse(one).relationTo(other);
  assert.equal(relation('10.0.0.1/24', '10.0.0.0/24'), 'same');
  assert.equal(relation('10.0.0.0/30', '10.0.0.5/24'), 'inside');
  assert.equal(relation('10.0.0.0/8', '10.0.0.5/24'), 'around');
  assert.equal(relation('10.0.0.0/9', '10.128.0.0/9'), 'apart');
  assert.equal(relation('0.0.0.0/0', '::/0'), 'apart');
  assert.ok(!IpNetwork.parse('0.0.0.0/0').contains('::ffff:10.0.0.1'));
  assert.ok(!IpNetwork.parse('::ffff:0:0/96').contains('10.0.0.1'));
  assert.ok(!IpNetwork.parse('::/0').contains('10.0.0.1'));
  assert.ok(!IpNetwork.parse('0.0.0.0/0').contains('::'));
  assert.ok(IpNetwork.parse('::ffff:0:0/96').contains('::ffff:10.0.0.1'));
  assert.ok(IpNetwork.parse('10.0.0.0/8').contains(IpAddress.parse('10.255.255.255')));
});

test('members and subnets', () => {
  const texts = (values) => Array.from(values, String);
  assert.deepEqual(
    texts(IpNetwork.parse('255.255.255.254/31')), ['255.255.255.254', '255.255.255.255'],
  );
  assert.deepEqual(texts(IpNetwork.parse('ffff:ffff:ffff:ffff:ffff:ffff:ffff:fffe/127')),
    ['ffff:ffff:ffff:ffff:ffff:ffff:ffff:fffe', 'ffff:ffff:ffff:ffff:ffff:ffff:ffff:ffff']);
  assert.deepEqual(texts(IpNetwork.parse('10.0.0.0/8').subnets(10)),
    ['10.0.0.0/10', '10.64.0.0/10', '10.128.0.0/10', '10.192.0.0/10']);
  assert.deepEqual(texts(IpNetwork.parse('0.0.0.0/0').subnets(0)), ['0.0.0.0/0']);
  assert.deepEqual(texts(IpNetwork.parse('::/0').subnets(1)), ['::/1', '8000::/1']);
  const all = IpNetwork.parse('0.0.0.0/0');
  assert.equal(`${all.nth(4294967295)} ${all.nth(4294967295n)} ${all.nth(4294967296)}`,
    '255.255.255.255 255.255.255.255 undefined');
  const six = IpNetwork.parse('::/0');
  assert.equal(`${six.nth(2n ** 128n - 1n)} ${six.nth(2n ** 128n)} ${six.nth(2 ** 53 - 1)}`,
    'ffff:ffff:ffff:ffff:ffff:ffff:ffff:ffff undefined ::1f:ffff:ffff:ffff');
  assert.equal(
    `${six.subnetAt(128, 2n ** 127n)} ${six.subnetAt(64, 2n ** 64n)}`, '8000::/128 undefined',
  );
  for (const prefix of [7, 33, 8.5, NaN, -1]) {
    assert.throws(
      () => IpNetwork.parse('10.0.0.0/8').subnets(prefix),
      { name: 'IpNetworkError', code: 'prefix' },
    );
  }
  /* Two iterations at once, and a question between two steps. */
  const two = IpNetwork.parse('10.0.0.0/30');
  const seen = [];
  for (const one of two) {
    for (const other of two) {
      if (IpNetwork.parse('::/0').contains('::1')) seen.push(`${one}${other}`);
    }
  }
  assert.equal(new Set(seen).size, 16);
  let steps = 0;
  for (const address of IpNetwork.parse('::/0')) {
    steps += 1;
    if (steps < 5) continue;
    assert.equal(`${address}`, '::4');
    break;
  }
});

test('a network has an address of the same first bits, as the library says', () => {
  const { AddressSet } = ipnetwork;
  for (const [text, width] of [['10.165.90.15', 32], ['a55a:f00f:1234::9abc:def0:3:8', 128]]) {
    const address = IpAddress.parse(text);
    const others = Array.from({ length: width }, (_, bit) => {
      const { octets } = address;
      octets[bit >> 3] ^= 128 >> (bit & 7);
      return IpAddress.fromOctets(octets);
    });
    const texts = others.map(String);
    for (let prefix = 0; prefix <= width; prefix += 1) {
      const network = IpNetwork.parse(`${text}/${prefix}`);
      const members = others.map((other) => (network.contains(other) ? 1 : 0));
      assert.deepEqual(members, others.map((_, bit) => (bit >= prefix ? 1 : 0)), String(network));
      assert.deepEqual(members, [...new AddressSet([network]).containsColumn(texts)]);
      assert.ok(network.contains(address) && network.contains(text));
    }
  }
  assert.ok(!IpNetwork.parse('::/0').contains('0.0.0.0'));
  assert.ok(!IpNetwork.parse('0.0.0.0/0').contains('::'));
});
