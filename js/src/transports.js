// Links. A link has three functions, and may have a flag:
//
//   start(receive, closed)   calls `receive` with each piece of bytes that comes, and `closed` once when the link has ended, with the
//                            error if there was one. Bytes that came before are kept, and so is an end
//   send(bytes)              sends bytes, in order. After the end it does nothing
//   close()                  ends the link. `closed` is called on both sides
//   losesFrames              true if the other side may drop whole frames. A tab then sends its report and all that waits again

import { WlbError } from './module.js';

/** Throws a TypeError if a value lacks one of the functions. `wanted` says what it should be. */
export function need(value, functions, wanted) {
  if (functions.some(name => typeof value?.[name] !== 'function')) throw new TypeError(wanted);
}

export const LINK = ['start', 'send', 'close'];
export const PORT = ['postMessage', 'start', 'close'];

/** Calls `run` with each event of a port. A port of Electron's main process is an EventEmitter. */
export function listen(port, type, run) {
  if (port.addEventListener) port.addEventListener(type, run);
  else port.on(type, run);
}

/** Returns bytes with a buffer of their own, since postMessage copies the whole buffer. */
export function whole(bytes) {
  return bytes.byteLength === bytes.buffer.byteLength ? bytes : Uint8Array.from(bytes);
}

/** End of a link. It calls its listener once, even if the link ended before `listen`. */
export class Ending {
  isOver = false;
  #error = null;
  #tell = null;

  /** Notes the end, and tells it. Returns false if the link had ended before. */
  come(error = null) {
    if (this.isOver) return false;
    this.isOver = true;
    this.#error = error;
    this.#tell?.(error);
    return true;
  }

  listen(tell) {
    this.#tell = tell;
    if (this.isOver) queueMicrotask(() => tell(this.#error));
  }
}

/** A link over a MessagePort of a browser, of Electron or of node:worker_threads. A message that is not bytes ends it. */
export function portLink(port) {
  need(port, PORT, 'portLink needs a MessagePort');
  const ending = new Ending();
  const end = () => {
    if (ending.come()) port.close();
  };
  listen(port, 'close', end);
  return {
    start(receive, closed) {
      ending.listen(closed);
      listen(port, 'message', ({ data }) => {
        if (ending.isOver) return;
        if (data instanceof Uint8Array) receive(data);
        else end();
      });
      port.start();
    },
    send(bytes) {
      if (!ending.isOver) port.postMessage(whole(bytes));
    },
    close() {
      if (ending.isOver) return;
      port.postMessage(null);
      end();
    },
  };
}

/** A link over a stream socket of node:net. */
export function socketLink(socket) {
  need(socket, ['on', 'write', 'end'], 'socketLink needs a socket of node:net');
  const ending = new Ending();
  let error = null;
  socket.on('error', cause => { error = cause; });
  socket.on('close', () => ending.come(error));
  if (socket.destroyed) ending.come(socket.errored);
  return {
    start(receive, closed) {
      ending.listen(closed);
      socket.on('data', receive);
    },
    send(bytes) {
      if (socket.writable) socket.write(bytes);
    },
    close() {
      socket.end();
      // The other side's end follows its bytes. A link that was not started would never read them.
      socket.resume();
    },
  };
}

/**
 * Connects to the Unix socket of a host or of `wlb kernel` (Node). The kernel drops frames when a queue is full, so the link has
 * `losesFrames`.
 */
export async function connectSocket(path) {
  const { connect } = await import('node:net');
  const socket = connect(path), link = { ...socketLink(socket), losesFrames: true };
  await new Promise((resolve, reject) => {
    socket.once('connect', resolve);
    socket.once('error', reject);
  });
  return link;
}

/** Two links that are the ends of one: for a tab in the same event loop as its host. */
export function linkPair() {
  const { port1, port2 } = new MessageChannel();
  return [portLink(port1), portLink(port2)];
}

/**
 * Makes a SharedWorker the host of all tabs that connect to it. Call it before the script's first `await`. `host` may be a promise. A tab
 * uses `sharedWorkerLink(new SharedWorker(..))`.
 */
export function serveSharedWorker(scope, host) {
  scope.addEventListener('connect', async event => {
    const [port] = event.ports;
    try {
      (await host).accept(portLink(port), { url: scope.location.href });
    } catch (error) {
      // The link of a tab that is refused is closed.
      if (!(error instanceof WlbError)) throw error;
    }
  });
}

/** The link of a tab to a SharedWorker. It ends when the page is left. */
export function sharedWorkerLink(worker) {
  const link = portLink(worker.port);
  globalThis.addEventListener('pagehide', () => link.close());
  return link;
}
