// The part of a tab's process that its runner talks to: see kernel.js.

import fs from 'node:fs';
import net from 'node:net';
import { connect, connectSocket } from '../src/index.js';
import { receive, send } from './control.js';
import { clientModule } from './lab.js';

/**
 * Connects to the kernel that has started this process, and to the runner, which gives the tab its work. `wrap` may replace the tab's
 * link.
 */
export async function enter(come, wrap = link => link) {
  const [, , , , socket, file] = process.argv;
  const { id, control, data } = JSON.parse(fs.readFileSync(file, 'utf8')), link = await connectSocket(socket);
  let isLeaving = false;
  const close = () => {
    isLeaving = true;
    link.close();
  };
  const tab = await connect(wrap({ ...link, close }, data), clientModule);
  const runner = net.connect(control);
  runner.on('error', () => {});
  // Without its runner a tab has nothing to do.
  runner.on('close', () => { if (!isLeaving) process.exit(1); });
  const tell = message => send(runner, message);
  /** Closes the link as the kernel wants it: the process ends when the kernel has closed the other side. */
  const leave = async () => {
    tab.close();
    await Promise.all([tab.closed, new Promise(resolve => runner.end(resolve))]);
    process.exit(0);
  };
  tab.closed.then(() => { if (!isLeaving) tell({ op: 'closed' }); });
  receive(runner, message => (message.op === 'exit' ? leave() : come(message)));
  tell({ op: 'ready', id, process: process.pid, number: tab.id, origin: tab.origin });
  return { tab, data, tell, leave };
}
