// Tab: a client with its link. LockManager and BroadcastChannel stand on it.

import { broadcastChannelOf } from './broadcast.js';
import { Client } from './client.js';
import { Splitter, commandIn, joined, originIn, takenIn } from './frames.js';
import { lockManagerOf } from './locks.js';
import { CLIENT } from './module.js';
import { Tasks } from './tasks.js';
import { LINK, need } from './transports.js';

/**
 * Makes a tab over a link to a host, and waits for the welcome. Rejects if the link ends first. `source` is the module
 * `wlb/client.wasm`: its bytes, its URL, a Response, or the compiled module.
 */
export async function connect(link, source = CLIENT) {
  need(link, LINK, 'connect needs a link, such as portLink(port) or await connectSocket(path)');
  const client = await Client.create(source).catch(error => {
    link.close();
    throw error;
  });
  const agent = new Agent(client, link);
  await agent.welcomed;
  return new Tab(agent);
}

/** The locks and channels of one tab. */
export class Tab {
  #agent;
  /** `navigator.locks` of the page. */
  locks;
  /** The class BroadcastChannel of this tab. */
  BroadcastChannel;

  constructor(agent) {
    this.#agent = agent;
    this.locks = lockManagerOf(agent);
    this.BroadcastChannel = broadcastChannelOf(agent);
  }

  /** Number of the tab: the `clientId` of a query. */
  get id() { return this.#agent.tab; }

  /** Origin of the tab's documents. */
  get origin() { return this.#agent.origin; }

  /** Generation of the broker, or 0 before the first one. */
  get generation() { return this.#agent.generation; }

  /** Is resolved when the link has ended: with the error, or with null. */
  get closed() { return this.#agent.closed; }

  /** Closes the link. Locks of this tab go to other tabs, so its work under them has to be over. */
  close() { this.#agent.close(); }
}

// First and last pause, in milliseconds, before a tab sends unanswered messages again. The pause doubles, and begins anew when a number
// is decided or a generation is entered.
const FIRST_PAUSE = 20, LAST_PAUSE = 640;

/** The proved client with its link. It calls the functions in `#told` at once; they must not throw. */
export class Agent {
  #client;
  #link;
  #splitter = new Splitter();
  #told = new Map(); // number -> function that receives its result
  #waiting = new Set(); // numbers that are neither held nor over
  #hasHeard = false; // whether this generation's broker has sent more than a hello
  #pause = FIRST_PAUSE;
  #timer = null;
  #takens = []; // [number, function] by rising number
  #issued = 0; // commands that were put out
  #acknowledged = 0; // commands that the broker has taken
  #pending = []; // frames for the link
  #inboxes = new Map(); // channel -> function that is given each post
  #welcome;
  #end;
  tab = 0;
  origin = null;
  generation = 0;
  isClosed = false;
  tasks = new Tasks();

  constructor(client, link) {
    this.#client = client;
    this.#link = link;
    this.closed = new Promise(resolve => { this.#end = resolve; });
    this.welcomed = new Promise((resolve, reject) => {
      this.#welcome = resolve;
      this.closed.then(error => reject(error ?? new Error('the link was closed')));
    });
    this.welcomed.catch(() => {});
    link.start(bytes => this.#receive(bytes), error => this.#ended(error ?? null));
  }

  // ---- the link

  #receive(bytes) {
    if (this.isClosed) return;
    try {
      for (const frame of this.#splitter.push(bytes)) {
        if (!this.tab) this.origin = originIn(frame);
        this.#client.receive(frame, event => this.#tell(event));
        const taken = takenIn(frame);
        if (taken) this.#heard(taken);
      }
      this.#collect();
    } catch (error) {
      this.#ended(error);
      this.#link.close();
    }
  }

  #tell(event) {
    switch (event.kind) {
      case 'welcomed':
        this.tab = event.tab;
        return this.#welcome();
      case 'entered':
        this.generation = event.generation;
        this.#hasHeard = false;
        this.#pause = FIRST_PAUSE;
        // The report to this generation covers all commands before it.
        this.#taken(this.#issued);
        for (const number of event.ended) this.#settle(number, 'ended');
        return undefined;
      case 'posted':
        for (const channel of event.channels) this.#read(channel);
        return undefined;
      case 'granted':
      case 'notAvailable':
      case 'lost':
      case 'answered':
        return this.#settle(event.number, event.kind, event.entries);
      default: return undefined;
    }
  }

  #settle(number, kind, entries) {
    const told = this.#told.get(number);
    if (!told) return;
    this.#pause = FIRST_PAUSE;
    this.#waiting.delete(number);
    if (kind !== 'granted') this.#told.delete(number);
    told(kind, entries);
  }

  #heard(taken) {
    this.#hasHeard = true;
    clearTimeout(this.#timer);
    this.#timer = null;
    this.#taken(taken);
  }

  #taken(count) {
    this.#acknowledged = Math.max(this.#acknowledged, count);
    while (this.#takens.length && this.#takens[0][0] < this.#acknowledged) this.#takens.shift()[1]();
  }

  /** Takes the output of the client, and sends all of it at the end of this step. */
  #collect() {
    if (this.isClosed) return;
    for (const frame of this.#client.outputs()) {
      this.#issued = Math.max(this.#issued, commandIn(frame) + 1);
      if (this.#pending.push(frame) === 1) queueMicrotask(() => this.#flush());
    }
    this.#arm();
  }

  /**
   * Sends unanswered messages again, after a pause that becomes longer. A broker drops commands while a tab of the partition has not
   * reported. Over a link that loses frames, reports and answers may be lost, too.
   */
  #arm() {
    if (this.#timer || this.isClosed || !this.generation) return;
    const mayBeLost = this.#link.losesFrames && (!this.#hasHeard || this.#waiting.size > 0);
    if (!mayBeLost && this.#issued <= this.#acknowledged) return;
    this.#timer = setTimeout(() => {
      this.#timer = null;
      this.#pause = Math.min(2 * this.#pause, LAST_PAUSE);
      if (this.isClosed) return;
      // Nothing answers a report, so a tab without commands sends a query.
      if (this.#link.losesFrames && !this.#hasHeard && this.#issued <= this.#acknowledged) this.#ping();
      this.#client.resend();
      this.#collect();
    }, this.#pause);
  }

  #ping() {
    try {
      this.query(() => {});
    } catch {
      // All numbers are live. Then one of them is answered, or they are all held, and the next release is.
    }
  }

  #flush() {
    const frames = this.#pending;
    this.#pending = [];
    if (this.isClosed || !frames.length) return;
    this.#link.send(joined(frames));
  }

  /** Ends the link after sending all frames. `closed` resolves at the link's end. */
  close() {
    this.#flush();
    this.#stop();
    this.#link.close();
  }

  #ended(error) {
    this.#stop();
    this.#end(error);
  }

  #stop() {
    if (this.isClosed) return;
    this.isClosed = true;
    clearTimeout(this.#timer);
    const told = [...this.#told.values()];
    this.#told.clear();
    for (const tell of told) tell('closed');
    for (const [, tell] of this.#takens.splice(0)) tell();
  }

  // ---- commands

  /** Requests a lock, or probes it. `told` is called with 'granted', 'notAvailable', 'ended' or 'closed'. Returns the number. */
  ask(name, mode, isProbe, told) {
    if (this.isClosed) {
      told('closed');
      return -1;
    }
    const number = isProbe ? this.#client.probe(name, mode) : this.#client.request(name, mode);
    this.#told.set(number, told);
    this.#waiting.add(number);
    this.#collect();
    return number;
  }

  /** Queries the locks. `told` is called with 'answered' and the entries, or with 'lost', 'ended' or 'closed'. */
  query(told) {
    if (this.isClosed) return told('closed');
    const number = this.#client.query();
    this.#told.set(number, told);
    this.#waiting.add(number);
    return this.#collect();
  }

  /** Aborts a request that is not granted. */
  abort(number) {
    this.#told.delete(number);
    this.#waiting.delete(number);
    if (this.isClosed) return;
    this.#client.abort(number);
    this.#collect();
  }

  /** Releases a lock. Calls `then` when every later command finds the lock released. */
  release(number, then = () => {}) {
    this.#told.delete(number);
    if (this.isClosed) return then();
    this.#client.release(number);
    this.#collect();
    this.#takens.push([this.#issued - 1, then]);
    this.#taken(this.#acknowledged);
    return undefined;
  }

  // ---- channels

  openChannel(name, receive) {
    const channel = this.#client.openChannel(name);
    this.#inboxes.set(channel, receive);
    this.#collect();
    return channel;
  }

  /** Posts data, and gives it to the tab's own channels in the order of their opening. */
  post(channel, data) {
    this.#client.post(channel, data);
    this.#collect();
    for (const own of this.#inboxes.keys()) this.#read(own);
  }

  closeChannel(channel) {
    this.#inboxes.delete(channel);
    if (this.isClosed) return;
    this.#client.closeChannel(channel);
    this.#collect();
  }

  #read(channel) {
    const receive = this.#inboxes.get(channel);
    if (!receive) return;
    for (let post; (post = this.#client.read(channel)) !== null;) receive(post.data);
  }
}
