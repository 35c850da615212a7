// Links: sockets, several links over one port, and a SharedWorker.

import assert from 'node:assert/strict';
import fs from 'node:fs';
import net from 'node:net';
import os from 'node:os';
import path from 'node:path';
import test from 'node:test';
import { Host, LinkBundle, connect, connectSocket, linkPair, portLink, serveSharedWorker, sharedWorkerLink, socketLink } from '../src/index.js';
import { URL_A, clientModule, deferred, hold, hubModule, isAvailable, seen } from '../lab/lab.js';

test('tabs over a Unix socket', async t => {
  const folder = fs.mkdtempSync(path.join(os.tmpdir(), 'wlb-socket-')), file = path.join(folder, 'host');
  const host = await Host.create(hubModule), sockets = [];
  const server = net.createServer(socket => {
    sockets.push(socket);
    host.accept(socketLink(socket), { url: URL_A });
  });
  t.after(() => {
    server.close();
    for (const socket of sockets) socket.destroy();
    fs.rmSync(folder, { recursive: true });
  });
  await new Promise(resolve => server.listen(file, resolve));
  const [tab, other] = [await connect(await connectSocket(file), clientModule), await connect(await connectSocket(file), clientModule)];
  const first = await hold(tab, 'a');
  const second = hold(other, 'a');
  await seen(tab, 'a', 1, 1);
  // A message of 16,384 bytes and more comes in pieces.
  const channel = new tab.BroadcastChannel('a'), end = new other.BroadcastChannel('a'), come = deferred();
  end.onmessage = ({ data }) => come.resolve(data);
  channel.postMessage('x'.repeat(16_000));
  assert.equal((await come.promise).length, 16_000);
  const loss = assert.rejects(first.ended, error => error.name === 'AbortError');
  sockets[0].destroy();
  const { release, ended } = await second;
  await loss;
  assert.equal(host.status().living, 1);
  release();
  await ended;
  other.close();
  await other.closed;
});

test('the socket of a refused tab is closed, also if bytes of it are unread', async t => {
  const host = await Host.create(hubModule), server = net.createServer();
  t.after(() => server.close());
  await new Promise(resolve => server.listen(0, '127.0.0.1', resolve));
  const connection = new Promise(resolve => server.once('connection', resolve));
  const stranger = net.connect(server.address().port, '127.0.0.1');
  stranger.write(new Uint8Array(100_000));
  const socket = await connection, end = new Promise(resolve => socket.once('close', resolve));
  assert.throws(() => host.accept(socketLink(socket), { url: 'data:,x' }), error => error.code === 'OPAQUE_ORIGIN');
  stranger.resume();
  const late = new Promise(resolve => setTimeout(resolve, 2000, 'late').unref());
  assert.notEqual(await Promise.race([end, late]), 'late');
});

test('a socket without a server refuses', async () => {
  await assert.rejects(connectSocket('/nonexistent/socket'), error => error.code === 'ENOENT');
});

test('a link that has ended before `connect` makes it reject', async t => {
  const folder = fs.mkdtempSync(path.join(os.tmpdir(), 'wlb-socket-')), file = path.join(folder, 'host');
  // As a host does that refuses a tab.
  const server = net.createServer(socket => socket.end());
  t.after(() => {
    server.close();
    fs.rmSync(folder, { recursive: true });
  });
  await new Promise(resolve => server.listen(file, resolve));
  const closed = socket => new Promise(resolve => socket.once('close', resolve));
  const pages = new EventTarget();
  globalThis.addEventListener = pages.addEventListener.bind(pages);
  t.after(() => { delete globalThis.addEventListener; });
  const links = {
    async connectSocket() { return connectSocket(file); },
    async 'a socket'() {
      const socket = net.connect(file), link = socketLink(socket);
      await closed(socket);
      return link;
    },
    async 'a socket that was closed before'() {
      const socket = net.connect(file);
      await closed(socket.resume());
      return socketLink(socket);
    },
    async 'a port'() {
      const { port1, port2 } = new MessageChannel(), link = portLink(port1);
      port2.close();
      return link;
    },
    async 'a link that its own side has closed'() {
      const [link] = linkPair();
      link.close();
      return link;
    },
    async linkPair() {
      const [link, other] = linkPair(), host = await Host.create(hubModule);
      assert.throws(() => host.accept(other, { url: 'data:,x' }));
      return link;
    },
    async 'a link of a bundle'() {
      const { port1, port2 } = new MessageChannel(), link = new LinkBundle(port1).open(null);
      new LinkBundle(port2, other => other.close());
      t.after(() => port2.close());
      return link;
    },
    async 'a link of a bundle that is closed'() {
      const bundle = new LinkBundle(new MessageChannel().port1), link = bundle.open(null);
      bundle.close();
      return link;
    },
    async 'a link that a closed bundle opens'() {
      const bundle = new LinkBundle(new MessageChannel().port1);
      bundle.close();
      return bundle.open(null);
    },
    async sharedWorkerLink() {
      const link = sharedWorkerLink({ port: new MessageChannel().port1 });
      pages.dispatchEvent(new Event('pagehide'));
      return link;
    },
  };
  for (const [name, open] of Object.entries(links)) {
    const link = await open();
    await new Promise(resolve => setTimeout(resolve, 50));
    const late = new Promise(resolve => setTimeout(resolve, 2000, 'is not settled').unref());
    const result = await Promise.race([connect(link, clientModule).then(() => 'connects', error => error), late]);
    assert.ok(result instanceof Error, `${name}: ${result}`);
    assert.match(result.message, /the link was closed/, name);
  }
});

test('tabs of one port keep the order of their calls', async t => {
  const host = await Host.create(hubModule), { port1, port2 } = new MessageChannel();
  new LinkBundle(port2, (link, details) => host.accept(link, details));
  const bundle = new LinkBundle(port1);
  t.after(() => bundle.close());
  const tabs = [];
  for (let n = 0; n < 4; n++) tabs.push(await connect(bundle.open({ url: URL_A }), clientModule));
  const first = await hold(tabs[0], 'a');
  for (const order of [[1, 2, 3], [3, 1, 2], [2, 3, 1]]) {
    const aborts = new AbortController();
    const waiting = [];
    for (const n of order) {
      waiting.push(tabs[n].locks.request('a', { signal: aborts.signal }, () => assert.fail('called')));
      await new Promise(setImmediate);
    }
    const snapshot = await tabs[0].locks.query();
    assert.deepEqual(snapshot.pending.map(info => info.clientId), order.map(n => `${tabs[n].id}`));
    aborts.abort();
    for (const ended of waiting) await assert.rejects(ended, error => error.name === 'AbortError');
    await seen(tabs[0], 'a', 1, 0);
  }
  const second = tabs[1].locks.request('a', () => 'second');
  const loss = assert.rejects(first.ended, error => error.name === 'AbortError');
  tabs[0].close();
  assert.equal(await second, 'second');
  await loss;
  assert.equal(await isAvailable(tabs[2], 'a'), true);
  bundle.close();
  for (const tab of tabs) assert.equal(await tab.closed, null);
  while (host.status().living) await new Promise(setImmediate);
});

test('a port that sends something else is closed, and the host goes on', async t => {
  const host = await Host.create(hubModule);
  const { port1: good, port2 } = new MessageChannel();
  host.accept(portLink(port2), { url: URL_A });
  const tab = await connect(portLink(good), clientModule);
  t.after(() => tab.close());
  for (const message of ['text', 7, undefined, {}, [], new ArrayBuffer(8), new Uint16Array(4), new Uint8Array(4)]) {
    const { port1, port2: end } = new MessageChannel();
    host.accept(portLink(end), { url: URL_A });
    port1.start();
    port1.postMessage(message);
    while (host.status().living > 1) await new Promise(setImmediate);
    port1.close();
  }
  const open = [0, 'open', null], bytes = [0, 'bytes', new Uint8Array(0)];
  for (const messages of [
    [null], ['text'], [[]], [open, open], [['x', 'open', null]], [open, [0, 'bytes', 'text']], [open, [0, 'more', 1]],
    [open, bytes, [1, 'bytes', new Uint8Array(4)], [0, 'bytes', new Uint8Array(4)]], [open, [1, 'close'], [0, 'close'], [0, 'close'], bytes],
  ]) {
    const { port1, port2: end } = new MessageChannel();
    let count = 0;
    const bundle = new LinkBundle(end, link => {
      count++;
      host.accept(link, { url: URL_A });
    });
    port1.start();
    for (const message of messages) port1.postMessage(message);
    await new Promise(resolve => setTimeout(resolve, 20));
    assert.equal(count, messages.includes(open) ? 1 : 0);
    while (host.status().living > 1) await new Promise(setImmediate);
    bundle.close();
    port1.close();
  }
  assert.equal(await tab.locks.request('a', () => 'in'), 'in');
});

test('a port of Electron is an EventEmitter', async t => {
  const host = await Host.create(hubModule), { port1, port2 } = new MessageChannel();
  /** The functions of MessagePortMain. It takes no ArrayBuffer to transfer. */
  const main = { on: (type, run) => port2.addEventListener(type, run), start: () => port2.start(), close: () => port2.close() };
  main.postMessage = (message, ...transfer) => {
    assert.deepEqual(transfer, []);
    port2.postMessage(message);
  };
  host.accept(portLink(main), { url: URL_A });
  const tab = await connect(portLink(port1), clientModule);
  t.after(() => tab.close());
  assert.equal(await tab.locks.request('a', () => 'in'), 'in');
});

test('a SharedWorker hosts the tabs of a browser', async t => {
  // Its global object, and that of a page, as far as the package uses them.
  const scope = Object.assign(new EventTarget(), { location: { href: 'https://a.test/host.js' } });
  const page = new EventTarget();
  globalThis.addEventListener = page.addEventListener.bind(page);
  t.after(() => { delete globalThis.addEventListener; });
  const host = Host.create(hubModule);
  serveSharedWorker(scope, host);
  const open = () => {
    const { port1, port2 } = new MessageChannel();
    scope.dispatchEvent(Object.assign(new Event('connect'), { ports: [port2] }));
    return connect(sharedWorkerLink({ port: port1 }), clientModule);
  };
  const [tab, other] = await Promise.all([open(), open()]);
  assert.equal(tab.origin, 'https://a.test');
  const first = await hold(tab, 'a');
  assert.equal(await isAvailable(other, 'a'), false);
  first.ended.catch(() => {});
  page.dispatchEvent(new Event('pagehide'));
  assert.deepEqual([await tab.closed, await other.closed], [null, null]);
  while ((await host).status().living) await new Promise(setImmediate);
});
