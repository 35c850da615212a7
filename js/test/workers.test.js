// Tabs in worker_threads, each with a MessagePort to the host in the main thread.

import assert from 'node:assert/strict';
import test from 'node:test';
import { MessageChannel, Worker } from 'node:worker_threads';
import { portLink } from '../src/index.js';
import { Lab, URL_A, clientModule } from '../lab/lab.js';

const script = new URL('../lab/counter_worker.js', import.meta.url);

function start(lab, data) {
  const { port1, port2 } = new MessageChannel();
  lab.host.accept(portLink(port1), { url: URL_A });
  const worker = new Worker(script, { workerData: { port: port2, client: clientModule, ...data }, transferList: [port2] });
  const said = [], waits = [];
  worker.on('message', word => {
    said.push(word);
    for (const wait of waits) wait();
  });
  const failed = new Promise((_, reject) => worker.on('error', reject));
  const until = word => Promise.race([failed, new Promise(resolve => {
    const check = () => { if (said.includes(word)) resolve(); };
    waits.push(check);
    check();
  })]);
  return { worker, until };
}

async function count(t, rounds, restarts) {
  const lab = await Lab.of(t, URL_A), counter = new SharedArrayBuffer(12), heard = [];
  const channel = new lab.tabs[0].BroadcastChannel('done');
  const both = new Promise(resolve => {
    channel.onmessage = ({ data }) => { if (heard.push(data) === 2) resolve(); };
  });
  const workers = [1, 2].map(() => start(lab, { counter, rounds, name: 'counter' }));
  const timer = restarts ? setInterval(() => lab.host.restart(), 2) : null;
  await Promise.all([...workers.map(({ until }) => until('done')), both]);
  clearInterval(timer);
  await Promise.all(workers.map(({ worker }) => worker.terminate()));
  const [sum, inside, overlaps] = new Int32Array(counter);
  assert.deepEqual([sum, inside, overlaps], [2 * rounds, 0, 0]);
  assert.deepEqual(heard.map(data => data.tab).sort(), [2, 3]);
  return lab;
}

test('two workers count under one lock', async t => { await count(t, 200, false); });

test('two workers count under one lock while the broker is restarted', async t => {
  const lab = await count(t, 200, true);
  assert.ok(lab.host.status().generation > 2);
});

test('a worker that is terminated loses its lock to the next tab', async t => {
  const lab = await Lab.of(t, URL_A), counter = new SharedArrayBuffer(12);
  const { worker, until } = start(lab, { counter, rounds: 1, name: 'counter', staysFor: 'a' });
  await until('in');
  const second = lab.tabs[0].locks.request('a', () => 'second');
  assert.equal(await lab.tabs[0].locks.request('a', { ifAvailable: true }, lock => lock), null);
  await worker.terminate();
  assert.equal(await second, 'second');
  assert.equal(lab.host.status().living, 1);
});
