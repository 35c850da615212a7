// Links that lose frames, as those of `wlb kernel` do when a queue is full.

import assert from 'node:assert/strict';
import test from 'node:test';
import { Lab, URL_A, hold, isAvailable } from '../lab/lab.js';

/** Random numbers that stay the same for a seed. */
function randomOf(seed) {
  let state = seed;
  return () => {
    state = (Math.imul(state, 1664525) + 1013904223) >>> 0;
    return state / 2 ** 32;
  };
}

/** A link that loses a share of what is sent and of what comes, but no welcome and no hello. */
function lossy(link, share, random, counts) {
  const isLost = () => (random() < share ? ++counts.lost : 0);
  return {
    losesFrames: true,
    start: (receive, closed) => link.start(bytes => {
      if ([16, 20].includes(bytes[5]) || !isLost()) receive(bytes);
    }, closed),
    send: bytes => { if (!isLost()) link.send(bytes); },
    close: () => link.close(),
  };
}

test('tabs whose links lose a third of everything finish, also with restarts', async t => {
  const lab = await Lab.of(t), random = randomOf(1), counts = { lost: 0 };
  const tabs = [];
  for (let n = 0; n < 3; n++) tabs.push(await lab.open(URL_A, undefined, link => lossy(link, 1 / 3, random, counts)));
  let count = 0, inside = 0;
  const timer = setInterval(() => lab.host.restart(), 150);
  await Promise.all(tabs.map(async tab => {
    for (let round = 0; round < 8; round++) {
      await tab.locks.request('a', async () => {
        assert.equal(++inside, 1);
        const seen = count;
        await new Promise(setImmediate);
        count = seen + 1;
        inside--;
      });
      const aborts = new AbortController();
      const aborted = tab.locks.request('b', { signal: aborts.signal }, () => new Promise(resolve => setTimeout(resolve, 1)));
      setTimeout(() => aborts.abort(), 2);
      await aborted.catch(error => assert.equal(error.name, 'AbortError'));
      await tab.locks.query().catch(error => assert.equal(error.name, 'OperationError'));
    }
  }));
  clearInterval(timer);
  assert.equal(count, 24);
  assert.ok(counts.lost > 50);
});

test('an idle tab whose report was lost does not hold the partition up, and becomes silent', async t => {
  const lab = await Lab.of(t);
  const sent = [];
  let losses = 0;
  const idle = await lab.open(URL_A, undefined, link => ({
    ...link, losesFrames: true, send: bytes => { if (sent.push(bytes) && losses-- <= 0) link.send(bytes); },
  }));
  const tab = await lab.open(URL_A);
  assert.equal(await tab.locks.request('a', () => 'in'), 'in');
  // The new broker waits for the report of each tab, and the first three sendings of this one are lost.
  const before = sent.length;
  losses = 3;
  lab.host.restart();
  assert.equal(await tab.locks.request('a', () => 'in'), 'in');
  assert.ok(sent.length > before + 3);
  await new Promise(resolve => setTimeout(resolve, 100));
  const { length } = sent;
  await new Promise(resolve => setTimeout(resolve, 1500));
  assert.equal(sent.length, length);
  const held = await hold(idle, 'a');
  assert.equal(await isAvailable(tab, 'a'), false);
  held.release();
});
