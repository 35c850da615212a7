// Memory that is used up: a call is refused, and the module goes on.

import assert from 'node:assert/strict';
import test from 'node:test';
import { Hub } from '../src/index.js';
import { Part } from '../src/module.js';
import { hubModule } from '../lab/lab.js';

// Blocks of the heap have 2 ** n bytes, and are never split.
const LARGEST = 30n, LEAST = 4n, SPARE = 22n;

test('a call that is refused memory says so, and can be repeated', () => {
  const instance = new WebAssembly.Instance(hubModule), { host_allocate: allocate, host_free: free } = instance.exports;
  const hub = new Hub(new Part(instance, 'hub')), spare = [];
  for (let power = LEAST; power <= SPARE; power++) {
    for (let left = 64; left > 0; left--) spare.push(allocate(1n << power));
  }
  for (let power = LARGEST; power >= LEAST; power--) {
    while (allocate(1n << power) !== 0n);
  }
  assert.throws(() => hub.open(1, 'https://a.test/'), error => error.code === 'MEMORY');
  assert.equal(hub.isLiving(1), false);
  for (const block of spare) free(block);
  hub.open(1, 'https://a.test/');
  assert.equal(hub.isLiving(1), true);
  assert.equal([...hub.outputs()].length, 1);
});
