/** The places that the package gives out of the memory of the module: none twice at once. */
import assert from 'node:assert/strict';
import test from 'node:test';
import { Random } from './random.mjs';
import { exportsOf } from './sources.mjs';

const [memory, { AddressColumn }, { AddressSet }] = await exportsOf('memory', 'columns', 'set');

test('places of random lengths', () => {
  const random = new Random(9);
  const { TEXT, TEXT_ROOM, giveBack, take } = memory;
  const taken = [];
  const leave = (at) => {
    const [{ place, length, mark }] = taken.splice(at, 1);
    const there = memory.bytes.subarray(place, place + length);
    assert.ok(there.every((byte) => byte === mark), 'another wrote there');
    giveBack(place, length);
  };
  let largest = 0;
  for (let round = 0; round < 4; round += 1) {
    for (let step = 0; step < 3000; step += 1) {
      if (taken.length > 0 && random.below(100) < 48) leave(random.below(taken.length));
      else {
        const length = 1 + random.below(2 ** (1 + random.below(16)));
        const place = take(length);
        assert.ok(place >= TEXT + TEXT_ROOM && place + length <= memory.bytes.length);
        memory.bytes.fill(step % 251, place, place + length);
        taken.push({ place, length, mark: step % 251 });
      }
    }
    while (taken.length > 0) leave(random.below(taken.length));
    /* All of it is free: what was taken apart is one piece again. */
    const size = memory.memorySize();
    const piece = 2 ** (Math.floor(Math.log2(size - TEXT)) - 1);
    giveBack(take(piece), piece);
    assert.equal(memory.memorySize(), size);
    /* The later rounds need no more than the first ones. */
    if (round === 1) largest = size;
  }
  assert.ok(memory.memorySize() <= 2 * largest);
});

test('a column goes through the memory in parts', () => {
  const before = memory.memorySize();
  const texts = Array.from({ length: 200_000 }, (_, row) => `10.${row % 256}.1.2`);
  const column = AddressColumn.read(texts);
  assert.equal(new AddressSet(['10.0.0.0/8']).containsColumn(column).indexOf(0), -1);
  assert.ok(memory.memorySize() <= before + 2 ** 20);
});

test('of large lists only some are in the memory', () => {
  const before = memory.memorySize();
  const networks = Array.from({ length: 60_000 }, (_, i) => `2001:db8:${i.toString(16)}::/49`);
  let set = new AddressSet(networks);
  for (let i = 0; i < 100; i += 1) {
    set = set.union(new AddressSet([`2001:db8:ffff:${i.toString(16)}::/64`]));
    assert.ok(set.contains(`2001:db8:ffff:${i.toString(16)}::1`));
  }
  assert.ok(memory.memorySize() <= before + 160 * 2 ** 20);
});

/* The last one, since the memory is as large as it can be from here on. */
test('a length that no memory has is refused, and nothing is lost', () => {
  const before = memory.memorySize();
  assert.throws(() => memory.take(2 ** 32), /^RangeError: no memory for 4294967296 bytes$/);
  const places = [];
  const all = () => { for (;;) places.push(memory.take(2 ** 31)); };
  assert.throws(all, /^RangeError: no memory for /);
  for (const place of places) memory.giveBack(place, 2 ** 31);
  const place = memory.take(5000);
  memory.bytes.fill(7, place, place + 5000);
  memory.giveBack(place, 5000);
  assert.ok(memory.memorySize() >= before);
});
