// A thread of the suite: a tab that waits for its role from the runner.

import { parentPort, workerData } from 'node:worker_threads';
import { LinkBundle, connect } from '../src/index.js';
import { become } from './environment.js';

const bundle = new LinkBundle(workerData.port);
/** Opens a tab for a document of this thread. */
const openTab = url => connect(bundle.open({ url }), workerData.client);

const tab = await openTab(workerData.spec.url);
const context = {
  tab,
  openTab,
  tell: message => parentPort.postMessage(message),
  leave() {
    bundle.close();
    setImmediate(() => process.exit(0));
  },
  come: null,
};
parentPort.on('message', message => {
  if (message.op === 'exit') context.leave();
  else context.come(message);
});
become(context, workerData.spec);
