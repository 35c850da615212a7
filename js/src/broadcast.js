// BroadcastChannel of the HTML Standard, section 9.5, over the agent of a tab.

import { serialize, deserialize } from './messages.js';
import { WlbError, DATA_BYTES } from './module.js';
import { encodeName } from './names.js';
import { expose, exposeHandler } from './webidl.js';

const refusal = (name, message) => new DOMException(message, name);

/** Converts a WlbError into the error that the page gets. */
function errorOf(error) {
  if (!(error instanceof WlbError)) return error;
  switch (error.code) {
    case 'NAME_TOO_LONG': return new TypeError('a name has at most 255 bytes of UTF-8');
    case 'TOO_MANY_CHANNELS': return refusal('QuotaExceededError', 'the tab has too many open channels');
    case 'DATA_TOO_LONG': return refusal('DataCloneError', `a message has at most ${DATA_BYTES} bytes`);
    case 'POSTS_USED_UP': return refusal('QuotaExceededError', 'the tab has made all of its posts: close it, and connect anew');
    case 'CLOSED': return refusal('InvalidStateError', 'the channel is closed');
    case 'MEMORY': return new RangeError('out of memory');
    default: return error;
  }
}

/** Returns the class BroadcastChannel of a tab. */
export function broadcastChannelOf(agent) {
  class BroadcastChannel extends EventTarget {
    #name;
    #channel = null;
    #isOpen = true;

    constructor(name) {
      if (arguments.length < 1) throw new TypeError('BroadcastChannel needs a name');
      super();
      this.#name = `${name}`;
      const bytes = encodeName(this.#name);
      if (agent.isClosed) return;
      try {
        this.#channel = agent.openChannel(bytes, data => agent.tasks.queue(() => this.#deliver(data)));
      } catch (error) {
        throw errorOf(error);
      }
    }

    get name() { return this.#name; }

    postMessage(message) {
      if (arguments.length < 1) throw new TypeError('postMessage needs a message');
      // A document that is not active, or a worker that is closing, posts nothing.
      if (agent.isClosed || this.#channel === null) return;
      if (!this.#isOpen) throw refusal('InvalidStateError', 'the channel is closed');
      const data = serialize(message);
      try {
        agent.post(this.#channel, data);
      } catch (error) {
        throw errorOf(error);
      }
    }

    close() {
      if (this.#isOpen && this.#channel !== null) agent.closeChannel(this.#channel);
      this.#isOpen = false;
    }

    #deliver(data) {
      if (!this.#isOpen || agent.isClosed) return;
      const { origin } = agent;
      let event;
      try {
        event = new MessageEvent('message', { data: deserialize(data), origin });
      } catch {
        event = new MessageEvent('messageerror', { origin });
      }
      this.dispatchEvent(event);
    }
  }
  expose(BroadcastChannel, 'name', 'postMessage', 'close');
  exposeHandler(BroadcastChannel, 'message');
  exposeHandler(BroadcastChannel, 'messageerror');
  return BroadcastChannel;
}
