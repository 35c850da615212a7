// A thread of speed.js.

import { parentPort, workerData } from 'node:worker_threads';
import { connect, portLink } from '../src/index.js';
import { measure } from './speed_loop.js';

const tab = await connect(portLink(workerData.port), workerData.client);
parentPort.on('message', async ({ name, rounds }) => parentPort.postMessage(await measure(tab.locks, name, rounds)));
