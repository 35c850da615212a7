// Contexts of the suite as threads, each with a MessagePort to a host in this thread.

import { MessageChannel, Worker } from 'node:worker_threads';
import { Host, LinkBundle } from '../src/index.js';
import { sleep } from '../lab/kernel.js';
import { clientModule, hubModule } from '../lab/lab.js';

export class Threads {
  #host;
  #arePairs;
  #workers = [];
  #isOver = false;

  /** Prepares the run of a test. With `arePairs` each tab has 1,024 live numbers. */
  static async open(_test, arePairs) {
    const threads = new Threads();
    threads.#arePairs = arePairs;
    threads.#host = await Host.create(hubModule);
    return threads;
  }

  /** Starts a context of the origin `own` under `top`, and returns functions to reach it. Calls `come` with its messages. */
  start(spec, top, own, come, fail) {
    const { port1, port2 } = new MessageChannel();
    const accept = (link, { url }) => this.#host.accept(link, { url, top: top !== own || this.#arePairs ? top : undefined });
    new LinkBundle(port1, accept);
    const workerData = { port: port2, client: clientModule, spec };
    const worker = new Worker(new URL('thread.js', import.meta.url), { workerData, transferList: [port2] });
    this.#workers.push(worker);
    worker.on('message', come);
    worker.on('error', error => { if (!this.#isOver) fail(error.stack); });
    return { post: message => worker.postMessage(message), kill: () => worker.terminate() };
  }

  /** Restarts the broker. Returns whether one was restarted. */
  restart() {
    this.#host.restart();
    return true;
  }

  /** Ends all contexts, and returns faults. */
  async close() {
    this.#isOver = true;
    await Promise.all(this.#workers.map(worker => worker.terminate()));
    for (let left = 100; this.#host.status().living && left > 0; left--) await sleep(10);
    const { living } = this.#host.status();
    return living ? [`${living} tabs are left`] : [];
  }
}
