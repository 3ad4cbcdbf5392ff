/** Arguments that no program should give: each is refused by name, and nothing is changed by it. */
import assert from 'node:assert/strict';
import test from 'node:test';
import { runInNewContext } from 'node:vm';
import ipnetwork from './package.mjs';

const {
  AddressColumn, AddressSet, IpAddress, IpNetwork, IpNetworkError, Ipv4Address, Ipv4Network,
  Ipv6Address,
  Ipv6Network, NetworkColumn, PrefixTable, aggregate, summarizeRange,
} = ipnetwork;

const { proxy: revoked, revoke } = Proxy.revocable({}, {});
revoke();
const detached = new Uint8Array(4);
structuredClone(detached.buffer, { transfer: [detached.buffer] });
const trap = () => { throw new Error('code of the argument was run'); };

/* What is no text, no address and no network. */
const STRANGERS = [
  undefined, null, true, 0, 10, NaN, 10n, Symbol('10.0.0.0/8'), () => '10.0.0.0/8', {}, [],
  ['10.0.0.0/8'], new Date(), /x/, new Uint8Array(4), new ArrayBuffer(8), new Map(), globalThis,
  new Set(['10.0.0.0/8']), Promise.resolve('10.0.0.0/8'), new String('10.0.0.0/8'),
  { toString: () => '10.0.0.0/8' },
  { toString: trap, valueOf: trap, [Symbol.toPrimitive]: trap, toJSON: trap },
  Object.create(null), Object.create(IpNetwork.prototype), Object.create(Ipv4Network.prototype),
  new Proxy(IpNetwork.parse('10.0.0.0/8'), {}),
  new Proxy({}, { get: trap, has: trap, getPrototypeOf: trap }),
  revoked, JSON.parse('{"family":4,"prefix":8}'),
];
const network = IpNetwork.parse('10.0.0.0/8');
const address = IpAddress.parse('10.0.0.1');
const set = new AddressSet(['10.0.0.0/8']);
const table = new PrefixTable([['10.0.0.0/8', 1]]);

/* Calls of one argument, with the name that the TypeError has to give. */
const CALLS = [
  [IpNetwork.parse, 'text'],
  [IpNetwork.tryParse, 'text'],
  [Ipv4Network.parse, 'text'],
  [Ipv4Network.tryParse, 'text'],
  [Ipv6Network.parse, 'text'],
  [Ipv6Network.tryParse, 'text'],
  [IpAddress.parse, 'text'],
  [IpAddress.tryParse, 'text'],
  [Ipv4Address.parse, 'text'],
  [(value) => new Ipv4Network(value, 8), 'address'],
  [(value) => network.contains(value), 'address'],
  [(value) => network.isSubnetOf(value), 'other'],
  [(value) => network.isSupernetOf(value), 'other'],
  [(value) => network.overlaps(value), 'other'],
  [(value) => network.relationTo(value), 'other'],
  [(value) => network.compare(value), 'other'],
  [(value) => network.equals(value), 'other'],
  [(value) => address.compare(value), 'other'],
  [(value) => address.equals(value), 'other'],
  [(value) => IpNetwork.compare(value, network), 'one'],
  [(value) => set.contains(value), 'address'],
  [(value) => set.covers(value), 'network'],
  [(value) => set.union(value), 'other'],
  [(value) => set.equals(value), 'other'],
  [(value) => new AddressSet([value]), 'networks\\[0\\]'],
  [(value) => aggregate(['::1', value]), 'networks\\[1\\]'],
  [(value) => new PrefixTable([[value, 1]]), 'entries\\[0\\]'],
  [(value) => table.lookup(value), 'address'],
  [(value) => table.get(value), 'network'],
  [(value) => summarizeRange(value, '10.0.0.0'), 'first'],
  [(value) => summarizeRange('10.0.0.0', value), 'last'],
  [(value) => AddressColumn.read([value]), 'texts\\[0\\]'],
  [(value) => NetworkColumn.read(['x', value]), 'texts\\[1\\]'],
];

test('a wrong type is a TypeError that names the argument', () => {
  for (const stranger of STRANGERS) {
    for (const [call, name] of CALLS) {
      assert.throws(() => call(stranger), (error) => {
        assert.ok(error instanceof TypeError, `${call}: ${error}`);
        assert.match(error.message, new RegExp(`^${name} must be `), `${call}`);
        return true;
      });
    }
  }
});

test('what is no list is refused by name', () => {
  const strangers = [
    null, true, 0, 10n, Symbol('x'), () => [], {}, new Date(), { length: 1, 0: '::1' },
    Object.create(null), new ArrayBuffer(8), network, '10.0.0.0/8', '',
  ];
  const networks = /^TypeError: networks must be an iterable of networks or strings, not /;
  const entries = /^TypeError: entries must be an iterable of pairs of a network and a value, not /;
  const addresses = /^TypeError: addresses must be an AddressColumn or an array of strings, not /;
  const texts = /^TypeError: texts must be an array of strings, not /;
  const calls = [
    [(value) => new AddressSet(value), networks], [(value) => aggregate(value), networks],
    [(value) => new PrefixTable(value), entries],
    [(value) => set.containsColumn(value), addresses],
    [(value) => table.lookupColumn(value), addresses],
    [(value) => AddressColumn.read(value), texts], [(value) => NetworkColumn.read(value), texts],
  ];
  for (const stranger of strangers) {
    for (const [call, message] of calls) {
      assert.throws(() => call(stranger), message);
    }
  }
  for (const entry of [undefined, null, 'ab', 5, 10n, Symbol('x')]) {
    assert.throws(
      () => new PrefixTable([entry]),
      /^TypeError: entries\[0\] must be a pair of a network and a value, not /,
    );
  }
  assert.deepEqual(new AddressSet(new Set(['10.0.0.0/8'])).toJSON(), ['10.0.0.0/8']);
});

test('numbers that are none', () => {
  for (const value of [undefined, null, '8', {}, [], 8n, Symbol('8')]) {
    assert.throws(
      () => new Ipv4Network('10.0.0.0', value), /^TypeError: prefix must be a number, not /,
    );
    assert.throws(() => network.subnets(value), /^TypeError: prefix must be a number, not /);
  }
  for (const value of [-1, 33, 8.5, NaN, Infinity, -0.5, 2 ** 32 + 8]) {
    assert.throws(
      () => new Ipv4Network('10.0.0.0', value), { name: 'IpNetworkError', code: 'prefix' },
    );
  }
  for (const value of [-1, 0.5, NaN, Infinity, 2 ** 53, -1n]) {
    assert.throws(() => network.nth(value), RangeError);
  }
  for (const value of [undefined, null, '1', {}]) {
    assert.throws(() => network.nth(value), /^TypeError: number must be/);
  }
  assert.throws(() => new Ipv4Network('::1', 8), TypeError);
  assert.throws(() => new Ipv6Network('10.0.0.0', 8), TypeError);
});

test('buffers', () => {
  assert.throws(() => IpAddress.fromOctets(detached), RangeError);
  for (const value of [
    new Uint16Array(4), new ArrayBuffer(4), [10, 0, 0, 1], '1234', undefined,
    new DataView(new ArrayBuffer(4)),
  ]) {
    assert.throws(
      () => IpAddress.fromOctets(value), /^TypeError: octets must be a Uint8Array, not /,
    );
    assert.throws(() => Ipv4Address.fromOctets(value), TypeError);
  }
  assert.throws(() => IpAddress.fromOctets(new Uint8Array(5)), RangeError);
  assert.equal(
    IpAddress.fromOctets(new Uint8Array(new SharedArrayBuffer(4))).toString(), '0.0.0.0',
  );
});

test('octets that say of themselves that they are fewer', () => {
  const set = new AddressSet(['10.0.0.0/8', '2001:db8::/32']);
  set.contains('10.0.0.1');
  class Short extends Uint8Array { get length() { return 4; } }
  const own = new Uint8Array(2000).fill(9);
  Object.defineProperty(own, 'length', { value: 16 });
  for (const octets of [new Short(2000).fill(9), own]) {
    for (const kind of [IpAddress, Ipv4Address, Ipv6Address]) {
      assert.throws(() => kind.fromOctets(octets), /^RangeError: octets are 2000, and not /);
    }
  }
  /* Nothing was written over what is in the memory. */
  assert.deepEqual(
    [...set.containsColumn(['10.0.0.1', '9.9.9.9', '2001:db8::1', '909:909::'])], [1, 0, 1, 0],
  );
  const trapped = new Proxy(new Uint8Array(4), { get: trap, has: trap, getPrototypeOf: trap });
  assert.throws(() => IpAddress.fromOctets(trapped), TypeError);
  assert.throws(() => IpAddress.fromOctets(Object.create(Uint8Array.prototype)), TypeError);
  const elsewhere = runInNewContext('new Uint8Array([1, 2, 3, 4])');
  assert.equal(String(IpAddress.fromOctets(elsewhere)), '1.2.3.4');
});

test('a row is a number, and a prefix length 0 has no sign', () => {
  for (const column of [AddressColumn.read(['x', 'y']), NetworkColumn.read(['x', 'y'])]) {
    assert.equal(column.codeAt(1), 'address');
    for (const row of [2, -1, 0.5, NaN]) assert.equal(column.codeAt(row), undefined);
    for (const row of ['length', '0', '__proto__', undefined, 0n, [1]]) {
      assert.throws(() => column.codeAt(row), /^TypeError: row must be a number, not /);
    }
  }
  assert.ok(Object.is(new Ipv4Network('10.0.0.0', -0).prefix, 0));
  assert.ok(Object.is(new Ipv6Network('::1', -0).prefix, 0));
});

test('constructors that are not for callers', () => {
  for (const kind of [IpAddress, IpNetwork, AddressColumn, NetworkColumn]) {
    assert.throws(() => new kind(), TypeError);
    assert.throws(() => new kind(Symbol('made'), 4, 8, 1), TypeError);
  }
  assert.throws(() => Ipv4Network('10.0.0.0', 8), TypeError);
  assert.throws(
    () => Object.getOwnPropertyDescriptor(IpNetwork.prototype, 'prefix').get.call({}), TypeError,
  );
});

test('texts of any length and any units', () => {
  const zeros = '0'.repeat(10_000_000);
  assert.equal(`${IpNetwork.parse(`10.0.0.0/${zeros}8`)}`, '10.0.0.0/8');
  const code = (text) => {
    try {
      return `${IpNetwork.parse(text)}`;
    } catch (error) {
      assert.ok(
        error instanceof IpNetworkError && error.input === text && error.message.length < 300
      );
      return error.code;
    }
  };
  assert.equal(code(zeros), 'address');
  assert.equal(code(`10.0.0.0/${zeros}x`), 'prefix');
  assert.equal(code('/'.repeat(10_000_000)), 'format');
  assert.equal(code('é'.repeat(1_000_000)), 'address');
  const columns = [NetworkColumn, AddressColumn].map(
    (kind) => kind.read([zeros, '10.0.0.1', `::/${zeros}64`])
  );
  assert.deepEqual(columns.map((column) => column.refused), [1, 2]);
  assert.equal(`${columns[0].at(2)}`, '::/64');
  /* Units whose low byte, or whose UTF-8, has a digit or a slash in it; surrogates without
   * another; what looks alike. */
  for (const text of [
    '10.0.0.0\u012f8', '\u0131.2.3.4', '1.2.3.4\ud800', '\udfff', '1.2.3.4\u20448', '\uff11.2.3.4',
    '1.2.3.4\0', '\0', '1.2.3.4/8\0', '1.2.3.4\n', ' 1.2.3.4', '1.2.3.4/ 8', '\u0663.2.3.4',
    '1\u30022\u30023\u30024',
  ]) {
    assert.notEqual(code(text), '1.2.3.4/8', text);
    assert.match(code(text), /^(address|prefix)$/, JSON.stringify(text));
    assert.match(NetworkColumn.read(['::1', text]).codeAt(1), /^(address|prefix)$/);
  }
  assert.equal(code('\ud800/\udfff/'), 'format');
  assert.ok(code('10.0.0.0/\ud800') === 'prefix');
});

test('no message has more than 60 bytes of what is refused', () => {
  const set = new AddressSet();
  for (const [text, shown] of [
    ['x'.repeat(61), 'x'.repeat(60)], ['\u20ac'.repeat(21), '\u20ac'.repeat(20)],
    [`x${'\u{1f600}'.repeat(15)}`, `x${'\u{1f600}'.repeat(14)}`],
  ]) {
    for (const call of [
      () => IpNetwork.parse(text), () => IpAddress.parse(text), () => new AddressSet([text]),
      () => new AddressSet(NetworkColumn.read([text])), () => set.contains(text),
      () => set.containsColumn([text]), () => set.containsColumn(AddressColumn.read([text])),
    ]) {
      assert.throws(call, ({ message, input }) => (
        input === text && message.includes(`"${shown}\u2026"`) && !message.includes(text)
      ));
    }
    assert.throws(() => new AddressSet([], { [text]: true }), ({ message }) => (
      message.startsWith(`options.${shown}\u2026 is no option`)
    ));
  }
  assert.throws(() => IpNetwork.parse('x'.repeat(60)), { message: new RegExp(`"x{60}"`) });
  assert.throws(() => IpNetwork.parse('::/0').nth(-(10n ** 99n)), ({ name, message }) => (
    name === 'RangeError' && message.includes(`number is -1${'0'.repeat(58)}\u2026,`)
  ));
});

test('lists whose elements are made while they are looked at', () => {
  /* An element that asks the package while the list that has it is read. */
  const texts = ['10.0.0.1', 'x', '10.0.0.3'];
  const asking = new Proxy(texts, {
    get(target, name, receiver) {
      if (/^\d+$/.test(String(name))) {
        NetworkColumn.read(Array(100).fill('8.8.8.8'));
        IpNetwork.tryParse(`10.0.0.0/${'0'.repeat(100000)}9`);
        set.contains('::1');
      }
      return Reflect.get(target, name, receiver);
    },
  });
  assert.deepEqual(
    [...AddressColumn.read(asking)].map(String), ['10.0.0.1', 'undefined', '10.0.0.3'],
  );
  function* nested() {
    yield '10.0.0.0/9';
    yield new AddressSet(['10.128.0.0/9']).blocks().next().value;
    yield `10.0.0.0/${'0'.repeat(100000)}9`;
  }
  assert.deepEqual(aggregate(nested()).map(String), ['10.0.0.0/8']);
  /* A list that is shorter than it says, has holes, or ends with an error. */
  assert.throws(
    () => NetworkColumn.read(new Array(3)),
    /^TypeError: texts\[0\] must be a string, not undefined/,
  );
  assert.throws(
    () => aggregate((function* failing() { yield '::1'; throw new Error('mine'); })()),
    /^Error: mine/,
  );
  const growing = ['::1'];
  Object.defineProperty(growing, 0, { get() { growing.push('::2'); return '::1'; } });
  assert.equal(NetworkColumn.read(growing).length, 1);
});

test('errors say which element', () => {
  const texts = ['10.0.0.0/8', '10/8', 'x'];
  const message = 'no IP network at 1: "10/8": the part before the slash, or the whole text, '
    + 'is no address';
  const refused = { name: 'IpNetworkError', code: 'address', index: 1, input: '10/8', message };
  assert.throws(() => new AddressSet(texts), refused);
  assert.throws(() => aggregate(texts), refused);
  assert.throws(() => new PrefixTable(texts.map((text) => [text, 1])), refused);
});

test('a network in the place of an address points to what was meant', () => {
  const calls = [
    (value) => network.contains(value), (value) => set.contains(value),
    (value) => table.lookup(value),
  ];
  for (const call of calls) {
    assert.throws(() => call('10.0.0.0/8'), {
      name: 'IpNetworkError', code: 'address', input: '10.0.0.0/8', message: /isSubnetOf .* covers/,
    });
    assert.throws(() => call(network), { name: 'TypeError', message: /isSubnetOf .* covers/ });
    assert.throws(() => call('10.0.0'), { message: 'no IP address: "10.0.0"' });
  }
});

test('what is freed is refused', () => {
  const freed = new AddressSet(['10.0.0.0/8']);
  assert.ok(freed.contains('10.0.0.1'));
  freed.free();
  freed.free();
  for (const call of [
    () => freed.contains('10.0.0.1'), () => freed.containsColumn(['10.0.0.1']), () => freed.size,
    () => set.union(freed), () => freed.union(set), () => [...freed.blocks()],
  ]) {
    assert.throws(call, { name: 'IpNetworkError', code: 'freed' });
  }
  for (const networks of [['10.0.0.0/8', '::1'], ['10.0.0.0/8', '12.0.0.0/8'], ['::1', '::3']]) {
    const listed = new AddressSet(networks);
    assert.throws(() => { for (const _ of listed.blocks()) listed.free(); }, { code: 'freed' });
    const table = new PrefixTable(networks.map((text) => [text, text]));
    assert.throws(() => { for (const _ of table) table.free(); }, { code: 'freed' });
  }
  const other = new PrefixTable([['10.0.0.0/8', 1]]);
  other.free();
  assert.throws(() => other.lookup('10.0.0.1'), { code: 'freed' });
  assert.ok(set.contains('10.0.0.1'));
});
