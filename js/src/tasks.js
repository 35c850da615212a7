// Tasks of a tab's event loop.

/** Runs functions, each as a task of its own, in the order in which they were queued. */
export class Tasks {
  #queue = [];
  #schedule;

  constructor() {
    if (typeof setImmediate === 'function') {
      this.#schedule = () => setImmediate(() => this.#run());
    } else {
      const { port1, port2 } = new MessageChannel();
      port1.onmessage = () => this.#run();
      this.#schedule = () => port2.postMessage(null);
    }
  }

  queue(task) {
    if (this.#queue.push(task) === 1) this.#schedule();
  }

  #run() {
    const task = this.#queue[0];
    try {
      task();
    } finally {
      this.#queue.shift();
      if (this.#queue.length) this.#schedule();
    }
  }
}
