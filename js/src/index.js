// Exports of the package. Socket links need Node; SharedWorker links need a browser.

export { compile, WlbError } from './module.js';
export { Hub } from './hub.js';
export { Client } from './client.js';
export { Host } from './host.js';
export { connect, Tab } from './tab.js';
export { Lock, LockManager } from './locks.js';
export { LinkBundle } from './bundle.js';
export { connectSocket, linkPair, portLink, serveSharedWorker, sharedWorkerLink, socketLink } from './transports.js';
