// The hub by its bytes. The frames are the examples of docs/PROTOCOL.md.

import assert from 'node:assert/strict';
import test from 'node:test';
import { Hub } from '../src/index.js';
import { Part } from '../src/module.js';
import { hubModule } from '../lab/lab.js';

const bytes = text => Uint8Array.from(Buffer.from(text.replaceAll(' ', ''), 'hex'));
const output = hub => [...hub.outputs()].map(([tab, frame]) => [tab, Buffer.from(frame).toString('hex').toUpperCase()]);
const plain = text => text.replaceAll(' ', '');
const code = wanted => error => error.name === 'WlbError' && error.code === wanted;

const WELCOME = plain('00000014 01 14 0001 000E 68747470733A2F2F612E74657374');
const HELLO = plain('00000006 01 10 00000001');
const REPORT = '0000000C 01 02 00000001 00000000 0000';
const REQUEST = '0000000F 01 01 00000001 00000000 01 02 00 01 61';
const GRANTED = plain('0000000F 01 11 00000001 00000001 00000000 02');
const WAITING = plain('0000000F 01 11 00000001 00000001 00000000 01');

test('a tab is welcomed, and told of the generation', async () => {
  const hub = await Hub.create(hubModule);
  hub.open(1, 'https://a.test/page');
  assert.deepEqual(output(hub), [[1, WELCOME]]);
  hub.restart();
  assert.deepEqual(output(hub), [[1, HELLO]]);
  assert.deepEqual(hub.status(), { generation: 1, living: 1, untold: 0, outputs: 0 });
});

test('a frame may come in pieces, and is answered', async () => {
  const hub = await Hub.create(hubModule);
  hub.open(1, 'https://a.test/');
  hub.open(2, 'https://a.test/');
  hub.restart();
  hub.receive(2, bytes(REPORT));
  output(hub);
  const whole = bytes(REPORT + REQUEST);
  for (const byte of whole.subarray(0, -1)) hub.receive(1, Uint8Array.of(byte));
  assert.deepEqual(output(hub), []);
  hub.receive(1, whole.subarray(-1));
  assert.deepEqual(output(hub), [[1, GRANTED]]);
  hub.receive(2, bytes(REQUEST));
  assert.deepEqual(output(hub), [[2, WAITING]]);
  hub.close(1);
  assert.deepEqual(output(hub), [[2, GRANTED]]);
  assert.deepEqual([hub.isLiving(1), hub.isLiving(2)], [false, true]);
});

test('nothing is granted while a listed tab has not reported', async () => {
  const hub = await Hub.create(hubModule);
  hub.open(1, 'https://a.test/');
  hub.open(2, 'https://a.test/');
  hub.restart();
  output(hub);
  hub.receive(1, bytes(REPORT + REQUEST));
  assert.deepEqual(output(hub), []);
  // The command was dropped. When the last tab has reported, the hub greets tab 1 again, which sends it again.
  hub.receive(2, bytes(REPORT));
  assert.deepEqual(output(hub), [[1, HELLO]]);
  hub.receive(1, bytes(REQUEST));
  assert.deepEqual(output(hub), [[1, GRANTED]]);
});

test('faults and refusals have their codes', async () => {
  const hub = await Hub.create(hubModule);
  assert.throws(() => hub.open(1, 'data:,x'), code('OPAQUE_ORIGIN'));
  assert.throws(() => hub.open(1, 'no URL'), code('BAD_URL'));
  assert.throws(() => hub.open(1, `https://a.test/${'x'.repeat(100_000)}`), code('BAD_URL'));
  assert.throws(() => hub.open(0, 'https://a.test/'), code('NUMBER_TAKEN'));
  assert.throws(() => hub.open(65_537, 'https://a.test/'), RangeError);
  hub.open(1, 'https://a.test/');
  assert.throws(() => hub.open(1, 'https://a.test/'), code('NUMBER_TAKEN'));
  assert.throws(() => hub.receive(2, bytes(REPORT)), code('NO_TAB'));
  assert.throws(() => hub.receive(1, bytes('00000000')), code('BAD_FRAME'));
  // A hello is no frame of a tab.
  hub.open(2, 'https://a.test/');
  assert.throws(() => hub.receive(2, bytes(HELLO)), code('BAD_FRAME'));
  for (let tab = 3; tab <= 64; tab++) hub.open(tab, 'https://a.test/');
  assert.throws(() => hub.open(65, 'https://a.test/'), code('PARTITION_FULL'));
  hub.open(66, 'https://b.test/');
  hub.free();
  assert.throws(() => hub.restart(), code('NO_HANDLE'));
  assert.equal(hub.isLiving(1), false);
});

test('a large piece has many frames', async () => {
  const hub = await Hub.create(hubModule);
  hub.open(1, 'https://a.test/');
  hub.open(2, 'https://a.test/');
  hub.restart();
  output(hub);
  // 100 posts of 16,384 bytes (kind 3): number, channel `n`, data.
  const body = Buffer.alloc(2 + 4 + 2 + 2 + 16384, 0x78);
  const posts = Array.from({ length: 100 }, (_, number) => {
    body.set([1, 3, 0, 0, 0, number, 1, 0x6e, 0x40, 0x00]);
    const head = Buffer.alloc(4);
    head.writeUInt32BE(body.length);
    return Buffer.concat([head, body]);
  });
  hub.receive(1, Uint8Array.from(Buffer.concat(posts)));
  const heard = [...hub.outputs()];
  assert.equal(heard.length, 100);
  heard.forEach(([tab, frame], number) => {
    assert.equal(tab, 2);
    // Kind 19: source 1, and the post's number.
    assert.deepEqual([...frame.subarray(4, 12)], [1, 19, 0, 1, 0, 0, 0, number]);
    assert.equal(frame.length, 4 + body.length + 2);
  });
});

test('a module that has trapped is not called again', () => {
  let calls = 0;
  const exports = {
    memory: new WebAssembly.Memory({ initial: 1 }),
    host_allocate: () => 64n,
    wlb_hub_new: () => 0,
    wlb_hub_restart: () => { calls++; throw new WebAssembly.RuntimeError('unreachable'); },
    wlb_hub_is_living: () => 1,
  };
  const hub = new Hub(new Part({ exports }, 'hub'));
  assert.equal(hub.isLiving(1), true);
  assert.throws(() => hub.restart(), WebAssembly.RuntimeError);
  assert.throws(() => hub.restart(), /has failed/);
  assert.throws(() => hub.isLiving(1), /has failed/);
  assert.equal(calls, 1);
});
