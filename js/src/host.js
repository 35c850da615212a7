// Host: a hub with a link to each tab.

import { joined } from './frames.js';
import { Hub } from './hub.js';
import { HUB, WlbError } from './module.js';
import { LINK, need } from './transports.js';

/**
 * A hub whose tabs are links. It has no timer, and works only inside calls of its links and its owner. `source` of `create` is the
 * module `wlb/hub.wasm`: its bytes, its URL, a Response, or the compiled module.
 */
export class Host {
  #hub;
  #links = new Map(); // tab -> link
  #next = 1;

  static async create(source = HUB) {
    const host = new Host(await Hub.create(source));
    host.restart();
    return host;
  }

  constructor(hub) { this.#hub = hub; }

  /**
   * Makes a tab of a link, and returns its number. `url` is the URL of the document or worker; for a document in a frame, `top` is the
   * top-level document's URL. When the link ends, the host closes the tab, so a link must not end before its tab has stopped. A refused
   * tab throws a WlbError, a missing `url` a TypeError. Both close the link.
   */
  accept(link, options) {
    need(link, LINK, 'accept needs a link, such as portLink(port)');
    const tab = this.#next;
    try {
      const { url, top } = options ?? {};
      if (url === undefined) throw new TypeError('accept needs { url }, the URL of the document or worker');
      if (tab > 0xffff) throw new WlbError('NUMBER_TAKEN', 'all 65,535 tab numbers are used up');
      if (top === undefined) this.#hub.open(tab, url);
      else this.#hub.openPair(tab, top, url);
    } catch (error) {
      link.close();
      throw error;
    }
    this.#next = tab + 1;
    this.#links.set(tab, link);
    link.start(bytes => this.#receive(tab, bytes), () => this.close(tab));
    this.#send();
    return tab;
  }

  #receive(tab, bytes) {
    if (!this.#links.has(tab)) return;
    try {
      this.#hub.receive(tab, bytes);
    } catch (error) {
      if (!(error instanceof WlbError) || error.code !== 'BAD_FRAME') throw error;
      this.close(tab);
    }
    this.#send();
  }

  /** Closes a tab and its link. The tab has to be stopped first: its locks go to other tabs. */
  close(tab) {
    const link = this.#links.get(tab);
    if (!link) return;
    this.#links.delete(tab);
    this.#hub.close(tab);
    link.close();
    this.#send();
  }

  /** Restarts the broker. Held locks stay held. The requests of each tab keep their order. */
  restart() {
    this.#hub.restart();
    this.#send();
  }

  /** The numbers of the hub: see Hub.status(). */
  status() { return this.#hub.status(); }

  /** Sends each tab its frames, in one piece. */
  #send() {
    const output = new Map();
    for (const [tab, frame] of this.#hub.outputs()) {
      if (!output.has(tab)) output.set(tab, []);
      output.get(tab).push(frame);
    }
    for (const [tab, frames] of output) this.#links.get(tab)?.send(joined(frames));
  }
}
