// Errors of refused calls and of wrong arguments, with their messages.

import assert from 'node:assert/strict';
import net from 'node:net';
import test from 'node:test';
import { Client, Host, Hub, LinkBundle, connect, linkPair, portLink, socketLink } from '../src/index.js';
import { URL_A, clientModule, hubModule } from '../lab/lab.js';

/** An error of the package with this code and this text. */
const refused = (code, text) => error => {
  assert.deepEqual([error.name, error.code], ['WlbError', code]);
  assert.equal(error.message, `${code}: ${text}`);
  return true;
};

const wrong = text => error => {
  assert.ok(error instanceof TypeError, String(error));
  assert.match(error.message, text);
  return true;
};

/** A link without another side. It counts calls of `close`. */
function deadLink() {
  const link = { closed: 0, start() {}, send() {}, close() { link.closed++; } };
  return link;
}

test('a host says why it refuses a tab, and closes the link', async () => {
  const host = await Host.create(hubModule);
  const isAbsolute = 'url and top have to be absolute URLs of at most 2,048 bytes, such as https://app.example/';
  for (const [options, check] of [
    [{ url: 'page.html' }, refused('BAD_URL', isAbsolute)],
    [{ url: `https://a.test/${'x'.repeat(2048)}` }, refused('BAD_URL', isAbsolute)],
    [{ url: URL_A, top: '' }, refused('BAD_URL', isAbsolute)],
    [{ url: 'data:,x' }, refused('OPAQUE_ORIGIN', 'url and top have to have an origin, unlike data:,x')],
    [{}, wrong(/^accept needs \{ url \}/)],
    [undefined, wrong(/^accept needs \{ url \}/)],
    [null, wrong(/^accept needs \{ url \}/)],
    [URL_A, wrong(/^accept needs \{ url \}/)],
  ]) {
    const link = deadLink();
    assert.throws(() => host.accept(link, options), check);
    assert.equal(link.closed, 1);
  }
  assert.equal(host.accept(deadLink(), { url: URL_A }), 1);
});

test('a host has limits', async () => {
  const host = await Host.create(hubModule), open = url => host.accept(deadLink(), { url });
  for (let tab = 1; tab <= 1024; tab++) {
    assert.equal(open(`https://a${tab % 16}.test/`), tab);
    if (tab === 1009) assert.throws(() => open('https://a1.test/'), refused('PARTITION_FULL', '64 tabs of this url and top live'));
  }
  assert.throws(() => open('https://b.test/'), refused('TOO_MANY_LIVING', '1,024 tabs live'));
});

test('a host gives no number twice', () => {
  // A hub of this size would take seconds.
  const host = new Host({ open() {}, close() {}, outputs: () => [] }), link = deadLink();
  for (let tab = 1; tab <= 65_535; tab++) {
    assert.equal(host.accept(link, { url: URL_A }), tab);
    host.close(tab);
  }
  link.closed = 0;
  assert.throws(() => host.accept(link, { url: URL_A }), refused('NUMBER_TAKEN', 'all 65,535 tab numbers are used up'));
  assert.equal(link.closed, 1);
});

test('a link has to be one', async () => {
  const host = await Host.create(hubModule);
  const { port1, port2 } = new MessageChannel(), [link, other] = linkPair();
  for (const value of [undefined, null, 'locks.sock', {}, port1, Promise.resolve(link)]) {
    await assert.rejects(connect(value, clientModule), wrong(/^connect needs a link, such as .*await connectSocket\(path\)$/));
    assert.throws(() => host.accept(value, { url: URL_A }), wrong(/^accept needs a link/));
  }
  for (const value of [undefined, 'port', {}, new net.Socket()]) {
    assert.throws(() => portLink(value), wrong(/^portLink needs a MessagePort$/));
    assert.throws(() => new LinkBundle(value), wrong(/^LinkBundle needs a MessagePort$/));
  }
  for (const value of [undefined, 'locks.sock', {}, port1]) {
    assert.throws(() => socketLink(value), wrong(/^socketLink needs a socket of node:net$/));
  }
  for (const end of [port1, port2, link, other]) end.close();
});

test('a tab without a module closes its link', async () => {
  const host = await Host.create(hubModule), [ours, theirs] = linkPair();
  host.accept(ours, { url: URL_A });
  await assert.rejects(connect(theirs, new URL('none.wasm', import.meta.url)), error => error.code === 'ENOENT');
  const end = Date.now() + 2000;
  while (host.status().living && Date.now() < end) await new Promise(setImmediate);
  assert.equal(host.status().living, 0);
  ours.close();
});

test('another server is no host', async t => {
  const server = net.createServer(socket => socket.end('220 mail.example ready\r\n'));
  t.after(() => server.close());
  await new Promise(resolve => server.listen(0, '127.0.0.1', resolve));
  const socket = net.connect(server.address().port, '127.0.0.1');
  await assert.rejects(connect(socketLink(socket), clientModule), refused('BAD_FRAME', 'the other side is no host of wlb'));
});

test('bytes and modes are not converted', async () => {
  const hub = await Hub.create(hubModule), client = await Client.create(clientModule), name = Uint8Array.of(0x61);
  hub.open(1, URL_A);
  for (const [, frame] of hub.outputs()) client.receive(frame, () => {});
  const areBytes = wrong(/have to be Uint8Arrays$/);
  for (const bytes of ['a', [0x61], name.buffer, new Uint16Array(1), undefined]) {
    assert.throws(() => client.request(bytes, 'exclusive'), areBytes);
    assert.throws(() => client.probe(bytes, 'shared'), areBytes);
    assert.throws(() => client.openChannel(bytes), areBytes);
    assert.throws(() => client.receive(bytes, () => {}), areBytes);
    assert.throws(() => hub.receive(1, bytes), areBytes);
  }
  for (const mode of ['Shared', undefined, true]) assert.throws(() => client.request(name, mode), wrong(/is not a LockMode$/));
  assert.equal(client.request(name, 'shared'), 0);
  assert.throws(() => hub.receive(1, new Uint8Array(4)), refused('BAD_FRAME', 'the other side is no tab of wlb'));
  assert.throws(() => client.release(7), refused('NOTHING', 'there is no such number'));
});
