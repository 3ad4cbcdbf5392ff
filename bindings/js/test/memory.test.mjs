/** Nothing grows with the number of calls. Run with --expose-gc. */
import assert from 'node:assert/strict';
import test from 'node:test';
import { setImmediate } from 'node:timers/promises';
import ipnetwork from './package.mjs';

const { AddressColumn, AddressSet, IpAddress, IpNetwork, NetworkColumn, PrefixTable } = ipnetwork;
const MB = 1024 * 1024;

const used = () => {
  globalThis.gc();
  const { rss, heapUsed, external, arrayBuffers } = process.memoryUsage();
  return { rss, held: heapUsed + external + arrayBuffers };
};

/**
 * Runs calls until they have run warm, and then so many, which may not leave more than so many MB
 * in use.
 */
function flat(times, megabytes, call) {
  for (let i = 0; i < times / 10; i += 1) call(i);
  const before = used();
  for (let i = 0; i < times; i += 1) call(i);
  const after = used();
  assert.ok(
    after.held - before.held < megabytes * MB, `${(after.held - before.held) / MB} MB are held`,
  );
  assert.ok(
    after.rss - before.rss < (megabytes + 64) * MB,
    `the process grew by ${(after.rss - before.rss) / MB} MB`,
  );
}

test('10 million questions of values', () => {
  const network = IpNetwork.parse('10.1.9.32/16');
  const address = IpAddress.parse('10.1.255.255');
  flat(10_000_000, 1, () => network.contains(address));
});

test('texts that are read, printed and refused', () => {
  flat(300_000, 2, (i) => IpNetwork.parse(`10.${i & 255}.0.0/16`).last.toString());
  flat(200_000, 2, (i) => IpNetwork.tryParse(`10.${i & 255}.0/16`));
  flat(50_000, 2, () => assert.throws(() => IpNetwork.parse('10/8')));
});

test('long texts and columns', () => {
  const long = `10.0.0.0/${'0'.repeat(1_000_000)}8`;
  flat(100, 2, () => IpNetwork.parse(long));
  const texts = Array.from({ length: 1000 }, (_, i) => (
    i % 3 === 0 ? `2001:db8::${i}` : `10.0.${i & 255}.1`
  ));
  const set = new AddressSet(['10.0.0.0/9', '2001:db8::/33'], { mapped: true });
  const table = new PrefixTable([['10.0.0.0/9', 1]], { mapped: true });
  flat(300, 4, () => {
    set.containsColumn(AddressColumn.read(texts));
    table.lookupColumn(texts);
    NetworkColumn.read(texts).toStrings();
  });
});

test('sets and tables in a loop that never waits', () => {
  /* No callback of a registry runs while it lasts. Each set is asked, so that it is in the
   * memory of the module. */
  flat(20_000, 8, (i) => {
    const set = new AddressSet(
      [`10.${i & 255}.0.0/16`, '2001:db8::/32']
    ).union(new AddressSet(['192.0.2.0/24']));
    if (!set.contains('192.0.2.1') || !new PrefixTable([['10.0.0.0/8', i]]).lookup('10.0.0.1')) {
      throw new Error('wrong');
    }
  });
});

test('large sets in a loop that never waits', () => {
  const networks = Array.from(
    { length: 50_000 },
    (_, i) => IpNetwork.parse(`${10 + (i >> 15)}.${(i >> 7) & 255}.${(i << 1) & 255}.0/24`),
  );
  flat(30, 80, () => { new AddressSet(networks).contains('10.0.0.1'); });
});

test('what is freed is used again', () => {
  const networks = Array.from(
    { length: 5_000 }, (_, i) => `${10 + (i >> 15)}.${(i >> 7) & 255}.${(i << 1) & 255}.0/24`,
  );
  flat(20, 2, () => {
    const set = new AddressSet(networks, { mapped: true });
    assert.ok(['10.0.0.1', '::ffff:10.0.0.1'].every((text) => set.contains(text)));
    assert.equal(set.blockCount, 5_000);
    set.free();
  });
});

test('a set that nothing refers to is let go of', async () => {
  const collected = [];
  const registry = new FinalizationRegistry((name) => collected.push(name));
  (() => {
    for (let i = 0; i < 50; i += 1) {
      const set = new AddressSet([`10.${i}.0.0/16`]);
      set.contains('10.0.0.1');
      registry.register(set, i);
    }
  })();
  for (let turn = 0; turn < 20 && collected.length < 50; turn += 1) {
    globalThis.gc();
    await setImmediate();
  }
  assert.ok(collected.length >= 49, `${collected.length} of 50 are collected`);
});

test('more sets than are in the memory at once give the same answers', () => {
  const sets = Array.from(
    { length: 6000 }, (_, i) => new AddressSet([`10.${i >> 8}.${i & 255}.0/24`]),
  );
  for (let round = 0; round < 2; round += 1) {
    sets.forEach((set, i) => {
      assert.ok(set.contains(`10.${i >> 8}.${i & 255}.9`));
      assert.ok(!set.contains(`11.${i >> 8}.${i & 255}.9`));
    });
  }
});
