// BroadcastChannel: section 9.5 of the HTML Standard, in one tab and between tabs.

import assert from 'node:assert/strict';
import test from 'node:test';
import { Client, linkPair } from '../src/index.js';
import { deserialize, serialize } from '../src/messages.js';
import { Lab, URL_A, URL_B, clientModule, hold } from '../lab/lab.js';

const named = name => error => error instanceof DOMException && error.name === name;
const next = channel => new Promise(resolve => channel.addEventListener('message', resolve, { once: true }));

test('a message goes to all other channels of the name', async t => {
  const { tabs: [tab, other, stranger] } = await Lab.of(t, URL_A, URL_A, URL_B);
  const source = new tab.BroadcastChannel('a');
  const got = [];
  const channels = [[tab, 'a'], [other, 'a'], [tab, 'b'], [other, 'b'], [stranger, 'a']].map(([where, name], index) => {
    const channel = new where.BroadcastChannel(name);
    channel.onmessage = event => got.push([index, event.data]);
    return channel;
  });
  source.onmessage = () => got.push('the source');
  const come = Promise.all([next(channels[0]), next(channels[1])]);
  source.postMessage({ x: [1, , -0] });
  assert.deepEqual(got, []);
  const [event] = await come;
  assert.deepEqual([event.type, event.origin, event.source, event.ports.length], ['message', 'https://a.test', null, 0]);
  // Later messages of the same tab find the earlier ones delivered.
  const last = next(channels[1]);
  source.postMessage('last');
  await last;
  assert.deepEqual(got.filter(([index]) => index === 0), [[0, { x: [1, , -0] }], [0, 'last']]);
  assert.deepEqual(got.filter(([index]) => index === 1), [[1, { x: [1, , -0] }], [1, 'last']]);
  assert.equal(got.length, 4);
});

test('channels of one tab get messages oldest first', async t => {
  const { tabs: [tab] } = await Lab.of(t, URL_A);
  const channels = [0, 1, 2].map(() => new tab.BroadcastChannel('a')), got = [];
  channels.forEach((channel, index) => { channel.onmessage = ({ data }) => got.push(`${index}${data}`); });
  const last = next(channels[1]);
  channels[0].postMessage('x');
  channels[2].postMessage('y');
  await last;
  const all = new Promise(resolve => channels[1].addEventListener('message', resolve));
  channels[0].postMessage('z');
  await all;
  while (got.length < 6) await new Promise(setImmediate);
  assert.deepEqual(got, ['1x', '2x', '0y', '1y', '1z', '2z']);
});

test('a closed channel neither posts nor hears', async t => {
  const { tabs: [tab, other] } = await Lab.of(t, URL_A, URL_A);
  const source = new tab.BroadcastChannel('a'), closed = new tab.BroadcastChannel('a'), end = new other.BroadcastChannel('a');
  closed.onmessage = () => assert.fail('heard');
  source.postMessage(1);
  // The message waits as a task, and is dropped.
  closed.close();
  closed.close();
  assert.throws(() => closed.postMessage(2), named('InvalidStateError'));
  assert.equal((await next(end)).data, 1);
  const again = next(end);
  source.postMessage(3);
  assert.equal((await again).data, 3);
});

test('arguments, names and limits', async t => {
  const { tabs: [tab, other] } = await Lab.of(t, URL_A, URL_A);
  assert.throws(() => new tab.BroadcastChannel(), TypeError);
  const channel = new tab.BroadcastChannel(null), end = new other.BroadcastChannel('null');
  assert.deepEqual([channel.name, String(channel)], ['null', '[object BroadcastChannel]']);
  assert.throws(() => channel.postMessage(), TypeError);
  assert.throws(() => channel.postMessage(Symbol('x')), named('DataCloneError'));
  assert.throws(() => channel.postMessage(() => {}), named('DataCloneError'));
  // One byte for the version, one for the tag, four for the length.
  assert.throws(() => channel.postMessage('x'.repeat(16_384 - 5)), named('DataCloneError'));
  channel.postMessage('x'.repeat(16_384 - 6));
  assert.equal((await next(end)).data.length, 16_384 - 6);
  assert.throws(() => new tab.BroadcastChannel('x'.repeat(256)), TypeError);
  for (let n = 1; n < 64; n++) new tab.BroadcastChannel('n');
  assert.throws(() => new tab.BroadcastChannel('n'), named('QuotaExceededError'));
  channel.close();
  new tab.BroadcastChannel('n');
  const odd = new other.BroadcastChannel('\uD800'), same = new other.BroadcastChannel('\uD800'), not = new other.BroadcastChannel('\uFFFD');
  not.onmessage = () => assert.fail('heard');
  odd.postMessage('odd');
  assert.equal((await next(same)).data, 'odd');
});

test('a release comes before a message that is posted after it', async t => {
  const { tabs: [tab, other] } = await Lab.of(t, URL_A, URL_A);
  const source = new tab.BroadcastChannel('a'), end = new other.BroadcastChannel('a');
  for (let round = 0; round < 50; round++) {
    const lock = await hold(tab, 'a');
    const heard = next(end).then(() => other.locks.request('a', { ifAvailable: true }, it => it !== null));
    lock.release();
    await null;
    source.postMessage(round);
    assert.equal(await heard, true);
    await lock.ended;
  }
});

test('bytes that are no message make a messageerror', async t => {
  const lab = await Lab.of(t, URL_A);
  const end = new lab.tabs[0].BroadcastChannel('a'), came = [];
  for (const type of ['message', 'messageerror']) end.addEventListener(type, event => came.push(event.type));
  const both = new Promise(resolve => { end.onmessageerror = () => end.addEventListener('message', resolve); });
  // A client that posts other bytes than this package.
  const [mine, theirs] = linkPair(), client = await Client.create(clientModule);
  lab.host.accept(theirs, { url: URL_A });
  await new Promise(resolve => mine.start(bytes => client.receive(bytes, resolve), () => {}));
  const channel = client.openChannel(new TextEncoder().encode('a'));
  client.post(channel, Uint8Array.of(0));
  client.post(channel, serialize('a message'));
  for (const frame of client.outputs()) mine.send(frame);
  await both;
  mine.close();
  assert.deepEqual(came, ['messageerror', 'message']);
});

test('values come as structuredClone copies them', () => {
  const cycle = { list: [1, , 3], map: new Map([[{}, new Set(['x'])]]) };
  cycle.self = cycle;
  cycle.list.more = cycle.map;
  const error = new TypeError('no', { cause: cycle });
  for (const value of [
    undefined, null, true, false, 0, -0, 1.5, NaN, -Infinity, 0n, -(2n ** 70n), '', 'x', '\u{1F512}', '\uD800x', new Date(5),
    /a\/b/giu, [], [[1], 'a'], {}, { ['__proto__']: 1 }, new Map(), new Set([NaN]), new ArrayBuffer(3), new Uint8Array([1, 2, 3]).subarray(1, 2),
    new Float64Array([1.5]), new BigInt64Array([-1n]), new DataView(new ArrayBuffer(9), 2, 3), Object(1n), Object('x'), Object(false), cycle, error,
  ]) {
    assert.deepStrictEqual(deserialize(serialize(value)), structuredClone(value));
  }
  assert.ok(Number.isNaN(deserialize(serialize(new Date(NaN))).getTime()));
  const view = new Uint16Array(4), shared = deserialize(serialize([view, view.buffer, view]));
  assert.equal(shared[0].buffer, shared[1]);
  assert.equal(shared[0], shared[2]);
});

test('values without a form are refused', () => {
  for (const value of [Symbol('x'), () => {}, new WeakMap(), Promise.resolve(), new SharedArrayBuffer(8), [new SharedArrayBuffer(8)]]) {
    assert.throws(() => serialize(value), named('DataCloneError'));
  }
});

test('no bytes harm the reader', () => {
  const bytes = serialize({ a: [1, 'x', new Map([[1, new Date(0)]])], b: new Uint8Array(4), c: /x/g, d: 5n, e: new Error('x') });
  let refused = 0;
  for (let at = 0; at < bytes.length; at++) {
    assert.throws(() => deserialize(bytes.subarray(0, at)), Error);
    for (const wrong of [0, 255, bytes[at] ^ 1]) {
      const other = bytes.slice();
      other[at] = wrong;
      try {
        deserialize(other);
      } catch (error) {
        assert.ok(error instanceof Error);
        refused++;
      }
    }
  }
  assert.ok(refused > 100);
  assert.throws(() => deserialize(Uint8Array.of(...bytes, 0)), RangeError);
});
