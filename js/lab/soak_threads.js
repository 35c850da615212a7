// The stress over threads, each with a MessagePort to a host in this thread. Each notes in shared memory what it holds, and looks at
// the notes of the others. An exclusive section also adds to a counter that only its lock protects.

import { MessageChannel, Worker } from 'node:worker_threads';
import { Host, portLink } from '../src/index.js';
import { sleep } from './kernel.js';
import { clientModule, hubModule } from './lab.js';
import { SLOTS, Board } from './soak_board.js';
import { NAMES, dice } from './soak_lines.js';

const LATE = Symbol('late');

/** Plays for `seconds`, and returns faults and counts. */
export async function soakThreads({ seconds, tabs, seed, restart, kill, patience, wrong }) {
  const host = await Host.create(hubModule), board = new Board(Board.memory()), random = dice(seed);
  const workers = new Map(); // slot -> {worker, ended}
  const sums = { sections: 0, probes: 0, aborts: 0, queries: 0 }, faults = [];
  let restarts = 0, kills = 0, isOver = false, next = 0;

  const start = () => {
    const slot = next++, { port1, port2 } = new MessageChannel();
    host.accept(portLink(port1), { url: 'https://a.test/' });
    board.enter(slot);
    const workerData = { slot, port: port2, client: clientModule, memory: board.memory, seed: `${seed} ${slot}`, wrong };
    const worker = new Worker(new URL('soak_worker.js', import.meta.url), { workerData, transferList: [port2] });
    const ended = new Promise(resolve => worker.on('exit', resolve));
    worker.on('message', message => {
      if (message.fault) faults.push(`worker ${slot}: ${message.fault}`);
      else for (const key of Object.keys(sums)) sums[key] += message[key];
    });
    worker.on('error', error => faults.push(`worker ${slot}: ${error.stack}`));
    workers.set(slot, { worker, ended });
  };

  const every = async (ms, run) => {
    while (!isOver) {
      await sleep(random(2 * ms));
      if (!isOver) await run();
    }
  };

  for (let n = 0; n < tabs; n++) start();
  every(restart, () => {
    host.restart();
    restarts++;
  });
  every(kill, async () => {
    if (next >= SLOTS) return;
    const slots = [...workers.keys()], slot = slots[random(slots.length)], { worker } = workers.get(slot);
    workers.delete(slot);
    board.leave(slot);
    kills++;
    start();
    await worker.terminate();
  });
  await sleep(1000 * seconds);
  isOver = true;
  for (const { worker } of workers.values()) worker.postMessage('stop');
  const deadline = sleep(patience).then(() => LATE);
  for (const [slot, { worker, ended }] of workers) {
    if (await Promise.race([ended, deadline]) !== LATE) continue;
    faults.push(`worker ${slot} waits for ever`);
    await worker.terminate();
  }
  for (let left = 200; host.status().living && left > 0; left--) await sleep(10);
  if (host.status().living) faults.push(`${host.status().living} tabs are left`);
  for (let name = 0; name < NAMES; name++) {
    const count = board.count(name), { sum, unclear } = board.notes(name);
    if (count < sum || count > sum + unclear) faults.push(`counter ${name} is ${count} after ${sum} sections`);
  }
  if (board.meetings) faults.push(`${board.meetings} times two holders have met`);
  return { faults, sums, restarts, kills };
}
