// A worker that adds to a counter in shared memory, which only a lock protects.

import { parentPort, workerData } from 'node:worker_threads';
import { connect, portLink } from '../src/index.js';

const { port, client, counter, rounds, name } = workerData;
const cells = new Int32Array(counter);
const tab = await connect(portLink(port), client);
const channel = new tab.BroadcastChannel('done');
for (let round = 0; round < rounds; round++) {
  await tab.locks.request(name, async () => {
    if (Atomics.add(cells, 1, 1) !== 0) Atomics.add(cells, 2, 1);
    const seen = cells[0];
    await new Promise(setImmediate);
    cells[0] = seen + 1;
    Atomics.sub(cells, 1, 1);
  });
}
channel.postMessage({ tab: tab.id, rounds });
parentPort.postMessage('done');
if (workerData.staysFor) await tab.locks.request(workerData.staysFor, () => { parentPort.postMessage('in'); return new Promise(() => {}); });
