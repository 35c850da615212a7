// A thread of the stress.

import { parentPort, workerData } from 'node:worker_threads';
import { connect, portLink } from '../src/index.js';
import { Board } from './soak_board.js';
import { dice, forgetful, hasty, longest, pause, play } from './soak_lines.js';

const { slot, port, client, memory, seed, wrong } = workerData;
const board = new Board(memory), random = dice(seed), link = portLink(port);
const tab = await connect(wrong === 'forgetful' ? forgetful(link) : link, client);
let isOver = false;
parentPort.on('message', () => { isOver = true; });

async function section(line, name, mode) {
  board.hold(slot, line, name, mode);
  const count = board.count(name);
  await pause(random(longest(wrong, 3)));
  if (mode !== 'shared') board.add(slot, line, name, count + 1);
  board.drop(slot, line, name);
}

try {
  parentPort.postMessage(await play(wrong === 'hasty' ? hasty(tab.locks) : tab.locks, tab.id, random, section, () => isOver));
} catch (error) {
  parentPort.postMessage({ fault: error.stack ?? String(error) });
}
tab.close();
process.exit(0);
