/** The masks by which addresses are compared in JavaScript. */
import assert from 'node:assert/strict';
import test from 'node:test';
import { exportsOf } from './sources.mjs';

const [{ agreeInFour, agreeInSix }] = await exportsOf('masks');

test('each prefix length has its mask', () => {
  for (let prefix = 0; prefix <= 32; prefix += 1) {
    assert.ok(agreeInFour(prefix, 5, 5));
    assert.equal(agreeInFour(prefix, 0, -1), prefix === 0);
  }
  for (let prefix = 0; prefix <= 128; prefix += 1) {
    assert.ok(agreeInSix(prefix, 1, 2, 3, 4, 1, 2, 3, 4));
    assert.equal(agreeInSix(prefix, 0, 0, 0, 0, -1, -1, -1, -1), prefix === 0);
  }
});

test('a prefix length without a mask is refused, also where the addresses are the same', () => {
  const none = [-1, 0.5, 129, 255, 2 ** 32, NaN, Infinity, undefined, null, '8'];
  for (const prefix of [33, ...none]) {
    assert.throws(() => agreeInFour(prefix, 0, -1), RangeError);
    assert.throws(() => agreeInFour(prefix, 5, 5), RangeError);
  }
  for (const prefix of none) {
    assert.throws(() => agreeInSix(prefix, 0, 0, 0, 0, -1, -1, -1, -1), RangeError);
    assert.throws(() => agreeInSix(prefix, 1, 2, 3, 4, 1, 2, 3, 4), RangeError);
  }
});
