// Several links over one MessagePort.

import { Ending, PORT, listen, need, whole } from './transports.js';

/**
 * Links of one event loop over one MessagePort, which keeps the order of all frames. Calls `opened` with each link that the other side
 * opens, and with its details, any value that can be posted. A host has to check the details. `opened` must not throw.
 */
export class LinkBundle {
  #port;
  #opened;
  #ends = new Map(); // number -> end of a link: {receive, closed, kept}
  #next = 0;
  #isOver = false;

  constructor(port, opened = null) {
    need(port, PORT, 'LinkBundle needs a MessagePort');
    this.#port = port;
    this.#opened = opened;
    listen(port, 'message', ({ data }) => this.#come(data));
    listen(port, 'close', () => this.close());
    port.start();
  }

  /** Opens a link. Only one side of a port may open links. A link of a port that has ended has ended, too. */
  open(details) {
    const number = this.#next++;
    this.#post(number, 'open', details);
    return this.#link(number);
  }

  /** Ends all links and the port. */
  close() {
    if (this.#isOver) return;
    this.#isOver = true;
    this.#port.close();
    for (const number of [...this.#ends.keys()]) this.#end(number);
  }

  /** Takes a message. One of another form ends all links: the other side is broken or hostile. */
  #come(message) {
    if (this.#isOver) return;
    const [number, kind, value] = Array.isArray(message) ? message : [];
    const end = this.#ends.get(number);
    if (kind === 'open' && this.#opened && Number.isInteger(number) && !end) this.#opened(this.#link(number), value);
    else if (kind === 'bytes' && value instanceof Uint8Array) end?.receive(value);
    else if (kind === 'close') this.#end(number);
    else this.close();
  }

  #post(...message) {
    if (!this.#isOver) this.#port.postMessage(message);
  }

  #end(number) {
    const end = this.#ends.get(number);
    this.#ends.delete(number);
    end?.closed();
  }

  #link(number) {
    const kept = [], ending = new Ending();
    const end = { receive: bytes => kept.push(bytes), closed: () => ending.come() };
    if (this.#isOver) ending.come();
    else this.#ends.set(number, end);
    return {
      start(receive, closed) {
        end.receive = receive;
        ending.listen(closed);
        for (const bytes of kept.splice(0)) receive(bytes);
      },
      send: bytes => {
        if (this.#ends.get(number) === end) this.#post(number, 'bytes', whole(bytes));
      },
      close: () => {
        if (this.#ends.get(number) !== end) return;
        this.#post(number, 'close', null);
        this.#end(number);
      },
    };
  }
}
