// LockManager by the draft of Web Locks, in one tab and between tabs.

import assert from 'node:assert/strict';
import test from 'node:test';
import { Lock, LockManager } from '../src/index.js';
import { Lab, URL_A, URL_B, deferred, hold, isAvailable, late, seen } from '../lab/lab.js';

const named = name => error => error instanceof DOMException && error.name === name;

test('a lock has its name and mode, and the promise has the result of the callback', async t => {
  const { tabs: [tab] } = await Lab.of(t, URL_A);
  const result = await tab.locks.request('a', lock => {
    assert.ok(lock instanceof Lock);
    assert.deepEqual([lock.name, lock.mode, String(lock)], ['a', 'exclusive', '[object Lock]']);
    return 42;
  });
  assert.equal(result, 42);
  assert.equal(await tab.locks.request('a', { mode: 'shared' }, async lock => lock.mode), 'shared');
  assert.equal(await isAvailable(tab, 'a'), true);
});

test('a callback that throws or rejects releases the lock', async t => {
  const { tabs: [tab, other] } = await Lab.of(t, URL_A, URL_A);
  const error = new RangeError('mine');
  await assert.rejects(tab.locks.request('a', () => { throw error; }), it => it === error);
  assert.equal(await isAvailable(other, 'a'), true);
  await assert.rejects(tab.locks.request('a', async () => { throw error; }), it => it === error);
  assert.equal(await isAvailable(other, 'a'), true);
});

test('the callback runs neither in the call nor in its microtasks', async t => {
  const { tabs: [tab] } = await Lab.of(t, URL_A);
  let isCalled = false;
  const ended = tab.locks.request('a', () => { isCalled = true; });
  assert.equal(isCalled, false);
  await null;
  assert.equal(isCalled, false);
  await ended;
  assert.equal(isCalled, true);
});

for (const [held, asked, isGranted] of [
  ['exclusive', 'exclusive', false], ['exclusive', 'shared', false], ['shared', 'exclusive', false], ['shared', 'shared', true],
]) {
  test(`beside a lock that is ${held}, one that is ${asked} is ${isGranted ? '' : 'not '}granted`, async t => {
    const { tabs: [tab, other] } = await Lab.of(t, URL_A, URL_A);
    for (const asking of [tab, other]) {
      const first = await hold(tab, 'a', { mode: held });
      assert.equal(await isAvailable(asking, 'a', asked), isGranted);
      assert.equal(await isAvailable(asking, 'b', asked), true);
      let isIn = false;
      const second = asking.locks.request('a', { mode: asked }, () => { isIn = true; });
      await seen(tab, 'a', 1, isGranted ? 0 : 1);
      assert.equal(isIn, isGranted);
      first.release();
      await second;
      assert.equal(isIn, true);
      await first.ended;
    }
  });
}

test('a shared request waits behind an exclusive one that waits', async t => {
  const { tabs: [tab, other] } = await Lab.of(t, URL_A, URL_A);
  const first = await hold(tab, 'a', { mode: 'shared' });
  const order = [];
  const second = other.locks.request('a', () => { order.push('exclusive'); });
  await seen(tab, 'a', 1, 1);
  const third = tab.locks.request('a', { mode: 'shared' }, () => { order.push('shared'); });
  await seen(tab, 'a', 1, 2);
  assert.deepEqual(order, []);
  first.release();
  await Promise.all([second, third]);
  assert.deepEqual(order, ['exclusive', 'shared']);
});

test('requests are granted in the order in which they were made', async t => {
  const { tabs: [tab] } = await Lab.of(t, URL_A);
  const order = [];
  await Promise.all([1, 2, 3, 4].map(n => tab.locks.request('a', async () => {
    order.push(`in ${n}`);
    await new Promise(setImmediate);
    order.push(`out ${n}`);
  })));
  assert.deepEqual(order, ['in 1', 'out 1', 'in 2', 'out 2', 'in 3', 'out 3', 'in 4', 'out 4']);
});

test('ifAvailable gives null, and the result of the callback', async t => {
  const { tabs: [tab, other] } = await Lab.of(t, URL_A, URL_A);
  const first = await hold(tab, 'a');
  assert.equal(await other.locks.request('a', { ifAvailable: true }, lock => (lock === null ? 'null' : lock)), 'null');
  const error = new Error('mine');
  await assert.rejects(other.locks.request('a', { ifAvailable: true }, () => { throw error; }), it => it === error);
  // A probe leaves nothing in the queue.
  const snapshot = await tab.locks.query();
  assert.deepEqual([snapshot.held.length, snapshot.pending.length], [1, 0]);
  first.release();
  await first.ended;
  assert.equal(await isAvailable(other, 'a'), true);
});

test('when the promise of a request is settled, other tabs find the lock released', async t => {
  const lab = await Lab.of(t, URL_A), [other] = lab.tabs;
  const tab = await lab.open(URL_A, undefined, link => late(link, 10));
  for (const callback of [() => {}, async () => { throw new Error('mine'); }]) {
    await tab.locks.request('a', callback).catch(() => {});
    assert.equal(await isAvailable(other, 'a'), true);
  }
});

test('arguments are checked in the order of the draft', async t => {
  const { tabs: [tab] } = await Lab.of(t, URL_A);
  const { locks } = tab, signal = AbortSignal.abort(new Error('mine')), never = () => assert.fail('the callback was called');
  await assert.rejects(locks.request(), TypeError);
  await assert.rejects(locks.request('a'), TypeError);
  await assert.rejects(locks.request('a', {}), TypeError);
  await assert.rejects(locks.request('a', {}, undefined), TypeError);
  await assert.rejects(locks.request('a', { mode: 'foo' }, never), TypeError);
  await assert.rejects(locks.request('a', { mode: null }, never), TypeError);
  await assert.rejects(locks.request('a', { signal: 'x' }, never), TypeError);
  await assert.rejects(locks.request('a', { signal: null }, never), TypeError);
  await assert.rejects(locks.request('a', 7, never), TypeError);
  await assert.rejects(locks.request(Symbol('a'), never), TypeError);
  await assert.rejects(locks.request('-a', { signal: 'x' }, never), TypeError);
  await assert.rejects(locks.request('-a', { steal: true, ifAvailable: true, mode: 'foo' }, never), TypeError);
  await assert.rejects(locks.request('-a', never), named('NotSupportedError'));
  await assert.rejects(locks.request('-', { signal }, never), named('NotSupportedError'));
  await assert.rejects(locks.request('a', { steal: true, ifAvailable: true, signal }, never), named('NotSupportedError'));
  await assert.rejects(locks.request('a', { steal: true, mode: 'shared' }, never), named('NotSupportedError'));
  await assert.rejects(locks.request('a', { ifAvailable: true, signal }, never), named('NotSupportedError'));
  await assert.rejects(locks.request('a', { signal }, never), error => error === signal.reason);
  await assert.rejects(LockManager.prototype.request.call({}, 'a', never), TypeError);
  await assert.rejects(LockManager.prototype.query.call({}), TypeError);
  assert.throws(() => new LockManager(), TypeError);
  assert.throws(() => new Lock(), TypeError);
  const read = [];
  const options = new Proxy({}, { get: (_, key) => { read.push(key); } });
  await locks.request('a', options, () => {});
  assert.deepEqual(read, ['ifAvailable', 'mode', 'signal', 'steal']);
  assert.equal(await locks.request('a', null, lock => lock.mode), 'exclusive');
  assert.equal(await locks.request(undefined, undefined, lock => lock.name), 'undefined');
  assert.deepEqual(await locks.query(), { held: [], pending: [] });
});

test('steal is not supported', async t => {
  const { tabs: [tab] } = await Lab.of(t, URL_A);
  const first = await hold(tab, 'a');
  await assert.rejects(tab.locks.request('a', { steal: true }, () => assert.fail('called')), named('NotSupportedError'));
  assert.equal(await isAvailable(tab, 'a'), false);
  first.release();
});

test('a signal aborts a request that waits, with its reason', async t => {
  const { tabs: [tab, other] } = await Lab.of(t, URL_A, URL_A);
  const first = await hold(tab, 'a');
  const aborts = new AbortController(), reason = new Error('mine');
  const second = other.locks.request('a', { signal: aborts.signal }, () => assert.fail('called'));
  const third = other.locks.request('a', () => 'third');
  await seen(tab, 'a', 1, 2);
  aborts.abort(reason);
  await assert.rejects(second, error => error === reason);
  await seen(tab, 'a', 1, 1);
  first.release();
  assert.equal(await third, 'third');
  const plain = new AbortController();
  const fourth = other.locks.request('a', { signal: plain.signal }, () => assert.fail('called'));
  plain.abort();
  await assert.rejects(fourth, named('AbortError'));
  assert.equal(await isAvailable(tab, 'a'), true);
});

test('a signal does nothing once the callback has been called', async t => {
  const { tabs: [tab] } = await Lab.of(t, URL_A);
  const aborts = new AbortController(), until = deferred();
  const ended = tab.locks.request('a', { signal: aborts.signal }, () => {
    aborts.abort();
    return until.promise;
  });
  await seen(tab, 'a', 1, 0);
  assert.equal(await isAvailable(tab, 'a'), false);
  until.resolve('done');
  assert.equal(await ended, 'done');
});

test('a signal between the grant and the callback releases the lock', async t => {
  const { tabs: [tab, other] } = await Lab.of(t, URL_A, URL_A);
  // The grant is on its way at some of these moments, and the callback waits as a task at others.
  for (let turns = 0; turns < 30; turns++) {
    const aborts = new AbortController();
    let isCalled = false;
    const ended = tab.locks.request('a', { signal: aborts.signal }, () => { isCalled = true; return 'in'; });
    for (let turn = 0; turn < turns; turn++) await new Promise(setImmediate);
    const wasCalled = isCalled;
    aborts.abort('why');
    if (wasCalled) assert.equal(await ended, 'in');
    else await assert.rejects(ended, reason => reason === 'why');
    assert.equal(isCalled, wasCalled);
    await seen(other, 'a', 0, 0);
  }
});

test('a query shows held locks and requests, in order, with clients', async t => {
  const { tabs: [tab, other] } = await Lab.of(t, URL_A, URL_A);
  assert.notEqual(tab.id, other.id);
  const first = await hold(tab, 'a'), second = await hold(other, 'b', { mode: 'shared' });
  const third = other.locks.request('a', () => {});
  await seen(tab, 'a', 1, 1);
  const fourth = tab.locks.request('a', { mode: 'shared' }, () => {});
  const snapshot = await tab.locks.query();
  const [mine, theirs] = [`${tab.id}`, `${other.id}`];
  assert.deepEqual(snapshot, {
    held: [{ clientId: mine, mode: 'exclusive', name: 'a' }, { clientId: theirs, mode: 'shared', name: 'b' }],
    pending: [{ clientId: theirs, mode: 'exclusive', name: 'a' }, { clientId: mine, mode: 'shared', name: 'a' }],
  });
  first.release();
  second.release();
  await Promise.all([third, fourth, first.ended, second.ended]);
  assert.deepEqual(await other.locks.query(), { held: [], pending: [] });
});

test('partitions share no locks', async t => {
  const lab = await Lab.of(t, URL_A, URL_B);
  const framed = await lab.open(URL_A, URL_B), twice = await lab.open(URL_A, URL_A);
  const [tab, other] = lab.tabs;
  const first = await hold(tab, 'a');
  assert.equal(await isAvailable(other, 'a'), true);
  assert.equal(await isAvailable(framed, 'a'), true);
  assert.equal(await isAvailable(twice, 'a'), false);
  assert.deepEqual((await framed.locks.query()).held, []);
  assert.deepEqual([tab.origin, framed.origin, other.origin], ['https://a.test', 'https://a.test', 'https://b.test']);
  first.release();
});

test('names may be any DOMString of 255 bytes', async t => {
  const { tabs: [tab, other] } = await Lab.of(t, URL_A, URL_A);
  for (const name of ['', ' \r\n\0', '\u{1F512}', '\uD800', '\uDC00', '\uDC00\uD800', '\uFDD0', '\uFDD0d800', '\uFEFFa', 'x'.repeat(255)]) {
    const first = await hold(tab, name);
    assert.equal(first.lock.name, name);
    assert.deepEqual((await other.locks.query()).held.map(info => info.name), [name]);
    assert.equal(await isAvailable(other, name), false);
    first.release();
    await first.ended;
  }
  const first = await hold(tab, '\uD800');
  for (const name of ['\uDC00', '\uFDD0', '\uFDD0d800', '\uFFFD']) assert.equal(await isAvailable(other, name), true);
  await assert.rejects(tab.locks.request('x'.repeat(256), () => {}), TypeError);
  await assert.rejects(tab.locks.request('\u00E9'.repeat(128), () => {}), TypeError);
  first.release();
});

test('a tab may have 64 locks, requests and queries, and 1,024 if it was opened as a pair', async t => {
  const lab = await Lab.of(t, URL_A);
  const pair = await lab.open(URL_A, URL_A);
  for (const [tab, most] of [[lab.tabs[0], 64], [pair, 1024]]) {
    const locks = [];
    for (let n = 0; n < most; n++) locks.push(await hold(tab, `${n}`, { mode: 'shared' }));
    await assert.rejects(tab.locks.request('more', () => {}), named('QuotaExceededError'));
    await assert.rejects(tab.locks.query(), named('QuotaExceededError'));
    locks[0].release();
    await locks[0].ended;
    assert.equal(await tab.locks.request('more', () => 'one more'), 'one more');
    for (const lock of locks) lock.release();
    await Promise.all(locks.map(lock => lock.ended));
  }
});
