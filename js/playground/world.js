// World of the playground: a hub, clients and the messages between them. Each message waits until it is delivered.

import { Client, Hub } from '../src/index.js';
import { decodeName, encodeName } from '../src/names.js';

const view = frame => new DataView(frame.buffer, frame.byteOffset);
const OPERATIONS = [null, 'request', 'release', 'abort', 'query'];
const ANSWERS = [null, 'waiting', 'granted', 'gone', 'taken'];

/** Describes a frame (docs/PROTOCOL.md). */
export function describe(frame) {
  const data = view(frame), number = () => data.getUint32(10);
  switch (frame[5]) {
    case 1: {
      const operation = OPERATIONS[frame[14]];
      if (operation === 'query') return `${number()}: query`;
      if (operation !== 'request') return `${number()}: ${operation} ${data.getUint32(15)}`;
      const name = decodeName(frame.subarray(18, 18 + frame[17])), mode = frame[15] === 1 ? ', shared' : '';
      return `${number()}: ${frame[16] ? 'probe' : 'request'} ${name}${mode}`;
    }
    case 2: {
      const count = data.getUint16(frame[4] === 2 ? 18 : 14);
      return `report: ${count} ${count === 1 ? 'lock' : 'locks'}`;
    }
    case 3: return 'post';
    case 16: return `hello ${data.getUint32(6)}`;
    case 17: return `${data.getUint32(14)}: ${ANSWERS[frame[18]]}`;
    case 18: return `${number()}: snapshot`;
    case 19: return 'heard';
    case 20: return 'welcome';
    default: return '?';
  }
}

export class World {
  tabs = new Map(); // number -> {client, origin, locks: number -> {name, mode, isHeld, isProbe}, isAlive, said}
  wire = []; // {id, from, to, frame, label}: from or to is 0 for the hub
  events = []; // of the chart: {kind: 'message' | 'lost' | 'note', ..}
  #modules;
  #hub;
  #next = 1;
  #ids = 0;

  static async create(modules) {
    const world = new World();
    world.#modules = modules;
    world.#hub = await Hub.create(modules.hub);
    world.#hub.restart();
    return world;
  }

  get generation() { return this.#hub.status().generation; }

  async open(url) {
    const number = this.#next++;
    const client = await Client.create(this.#modules.client);
    this.tabs.set(number, { client, origin: new URL(url).host, locks: new Map(), isAlive: true, said: '' });
    this.#hub.open(number, url);
    this.#collect();
    return number;
  }

  kill(number) {
    const tab = this.tabs.get(number);
    tab.isAlive = false;
    tab.locks.clear();
    this.#note(number, 'dies');
    for (const message of this.wire.filter(one => one.from === number || one.to === number)) this.drop(message.id);
    this.#hub.close(number);
    this.#collect();
  }

  restart() {
    this.#hub.restart();
    this.#note(0, `generation ${this.generation}`);
    this.#collect();
  }

  request(number, name, mode = 'exclusive', isProbe = false) {
    const tab = this.tabs.get(number);
    tab.said = '';
    try {
      const command = isProbe ? tab.client.probe(encodeName(name), mode) : tab.client.request(encodeName(name), mode);
      tab.locks.set(command, { name, mode, isHeld: false, isProbe });
    } catch (error) {
      tab.said = error.code;
    }
    this.#collect();
  }

  /** Releases a lock, or aborts its request. */
  end(number, command) {
    const tab = this.tabs.get(number), { isHeld } = tab.locks.get(command);
    tab.locks.delete(command);
    if (isHeld) tab.client.release(command);
    else tab.client.abort(command);
    this.#collect();
  }

  /** Sends again all messages of a tab that the broker has not answered. */
  resend(number) {
    this.tabs.get(number).client.resend();
    this.#collect();
  }

  /** The command of a tab's lock or request with this name. */
  commandOf(number, name) {
    return [...this.tabs.get(number).locks].find(([, lock]) => lock.name === name)[0];
  }

  /** Delivers a message. With `isCopy` it also stays on its way. */
  deliver(id, isCopy = false) {
    const at = this.wire.findIndex(message => message.id === id), message = this.wire[at];
    if (!isCopy) this.wire.splice(at, 1);
    this.events.push({ ...message, kind: 'message' });
    if (message.to === 0) this.#hub.receive(message.from, message.frame);
    else this.tabs.get(message.to).client.receive(message.frame, event => this.#tell(message.to, event));
    this.#collect();
  }

  /** Delivers the oldest message. Returns whether there was one. */
  deliverNext() {
    if (!this.wire.length) return false;
    this.deliver(this.wire[0].id);
    return true;
  }

  drop(id) {
    const [message] = this.wire.splice(this.wire.findIndex(one => one.id === id), 1);
    this.events.push({ ...message, kind: 'lost' });
  }

  #note(at, text) { this.events.push({ kind: 'note', at, text }); }

  #tell(number, event) {
    const { locks } = this.tabs.get(number), tab = this.tabs.get(number);
    if (event.kind === 'granted' && locks.has(event.number)) locks.get(event.number).isHeld = true;
    if (event.kind === 'notAvailable') {
      tab.said = `${locks.get(event.number)?.name} is not available`;
      locks.delete(event.number);
    }
    for (const ended of event.ended ?? []) locks.delete(ended);
  }

  /** Puts all output on its way. */
  #collect() {
    for (const [to, frame] of this.#hub.outputs()) this.#send(0, to, frame);
    for (const [number, { client, isAlive }] of this.tabs) {
      if (isAlive) for (const frame of client.outputs()) this.#send(number, 0, frame);
    }
  }

  #send(from, to, frame) {
    this.wire.push({ id: ++this.#ids, from, to, frame, label: describe(frame) });
  }
}
