// Restarts of the broker, deaths of tabs, and ends of links.

import assert from 'node:assert/strict';
import test from 'node:test';
import { connect, linkPair } from '../src/index.js';
import { Lab, URL_A, clientModule, deferred, hold, isAvailable, late, seen } from '../lab/lab.js';

const named = name => error => error instanceof DOMException && error.name === name;

test('held locks stay held, and requests stay in their queue', async t => {
  const { host, tabs: [tab, other] } = await Lab.of(t, URL_A, URL_A);
  const first = await hold(tab, 'a'), order = [];
  const second = other.locks.request('a', () => { order.push(2); });
  const third = other.locks.request('a', () => { order.push(3); });
  await seen(tab, 'a', 1, 2);
  for (let round = 2; round < 6; round++) {
    host.restart();
    await seen(tab, 'a', 1, 2);
    assert.deepEqual([tab.generation, host.status().generation, order], [round, round, []]);
    assert.equal(await isAvailable(tab, 'a'), false);
    assert.equal(await isAvailable(other, 'b'), true);
  }
  first.release();
  await Promise.all([first.ended, second, third]);
  assert.deepEqual(order, [2, 3]);
});

test('a release and a request on their way to a restarted broker are not lost', async t => {
  const { host, tabs: [tab, other] } = await Lab.of(t, URL_A, URL_A);
  for (let turns = 0; turns < 20; turns++) {
    const first = await hold(tab, 'a');
    const second = other.locks.request('a', () => 'second');
    for (let turn = 0; turn < turns; turn++) await new Promise(setImmediate);
    first.release();
    const third = tab.locks.request('a', () => 'third');
    await null;
    host.restart();
    assert.deepEqual(await Promise.all([first.ended, second, third]), [undefined, 'second', 'third']);
    await seen(tab, 'a', 0, 0);
  }
});

test('a release that only the report to the next broker tells is taken', async t => {
  const { host, tabs: [tab, other] } = await Lab.of(t, URL_A, URL_A);
  const first = await hold(tab, 'a');
  first.release();
  host.restart();
  assert.equal(await first.ended, undefined);
  assert.equal(await isAvailable(other, 'a'), true);
});

test('commands that a broker drops while it recovers are sent again', async t => {
  const lab = await Lab.of(t, URL_A), [tab] = lab.tabs;
  // The new broker waits for the report of this tab, and drops what comes before it.
  await lab.open(URL_A, undefined, link => late(link, 60));
  await seen(tab, 'a', 0, 0);
  for (const command of [
    () => tab.locks.request('a', () => 'in'), () => isAvailable(tab, 'b'), () => tab.locks.query(), async () => (await hold(tab, 'c')).release(),
  ]) {
    lab.host.restart();
    while (tab.generation < lab.host.status().generation) await new Promise(setImmediate);
    await command();
  }
});

test('a probe or a query that a restart has taken away is asked once more', async t => {
  const { host, tabs: [tab, other] } = await Lab.of(t, URL_A, URL_A);
  const held = await hold(other, 'b');
  // The probe was put out to a generation that ends before it arrives.
  const probe = isAvailable(tab, 'a'), refused = isAvailable(tab, 'b'), query = tab.locks.query();
  host.restart();
  assert.equal(await probe, true);
  assert.equal(await refused, false);
  const snapshot = await query;
  assert.deepEqual(snapshot.held.filter(info => info.name === 'b').length, 1);
  held.release();
});

test('locks of a tab that ends go to the next one', async t => {
  const { host, tabs: [tab, other, third] } = await Lab.of(t, URL_A, URL_A, URL_A);
  const first = await hold(tab, 'a');
  const waiting = tab.locks.request('b', () => new Promise(() => {}));
  await seen(other, 'b', 1, 0);
  const second = other.locks.request('a', () => 'second');
  const dead = third.locks.request('a', () => assert.fail('called'));
  await seen(tab, 'a', 1, 2);
  third.close();
  await assert.rejects(dead, named('AbortError'));
  await seen(tab, 'a', 1, 1);
  // The page of the closed tab has lost its locks, as if they were stolen.
  const losses = [first.ended, waiting].map(ended => assert.rejects(ended, named('AbortError')));
  tab.close();
  assert.equal(await second, 'second');
  await Promise.all(losses);
  assert.equal(await isAvailable(other, 'b'), true);
  await assert.rejects(tab.locks.request('a', () => assert.fail('called')), named('InvalidStateError'));
  await assert.rejects(tab.locks.query(), named('InvalidStateError'));
  assert.equal(await tab.closed, null);
  assert.equal(host.status().living, 1);
});

test('a tab that dies while a broker has to hear of all tabs holds nobody up', async t => {
  const lab = await Lab.of(t, URL_A, URL_A);
  const [tab, other] = lab.tabs;
  const first = await hold(tab, 'a');
  const second = other.locks.request('a', () => 'second');
  await seen(other, 'a', 1, 1);
  // The broker is restarted, and the tab dies before its report comes.
  const loss = assert.rejects(first.ended, named('AbortError'));
  lab.host.restart();
  tab.close();
  assert.equal(await second, 'second');
  await loss;
});

test('a link without a hub is refused, and a tab that breaks the protocol is closed', async t => {
  const lab = await Lab.of(t, URL_A);
  const [mine, theirs] = linkPair();
  theirs.start(() => {}, () => {});
  theirs.send(Uint8Array.of(0, 0, 0, 6, 1, 16, 0, 0, 0, 1));
  await assert.rejects(connect(mine, clientModule), error => error.code === 'BAD_FRAME');
  const [bad, host] = linkPair(), ended = deferred();
  lab.host.accept(host, { url: URL_A });
  assert.equal(lab.host.status().living, 2);
  bad.start(() => {}, ended.resolve);
  bad.send(new Uint8Array(4));
  assert.equal(await ended.promise, null);
  assert.equal(lab.host.status().living, 1);
  const [late, refused] = linkPair();
  assert.throws(() => lab.host.accept(refused, { url: 'data:,x' }), error => error.code === 'OPAQUE_ORIGIN');
  await assert.rejects(connect(late, clientModule), /closed/);
  assert.equal(await isAvailable(lab.tabs[0], 'a'), true);
});
