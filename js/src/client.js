// Client: locks and channels of one tab, behind bytes.

import { CLIENT, Part, WlbError, pieces } from './module.js';
import { lockMode } from './webidl.js';

const KINDS = [null, 'welcomed', 'entered', 'granted', 'waiting', 'notAvailable', 'lost', 'answered', 'posted', 'other'];

/**
 * The agent of one tab. It has no link and no timer: the caller gives it the bytes of its link, sends its output, and takes its events.
 * Names are UTF-8 bytes. A call that is refused throws a WlbError, whose `code` is a status of include/wlb.h.
 */
export class Client {
  #part;

  /** Makes a client from the module `wlb/client.wasm`: its bytes, its URL, a Response, or the compiled module. */
  static async create(source = CLIENT) { return new Client(await Part.create(source, 'client')); }

  constructor(part) { this.#part = part; }

  /**
   * Takes bytes of the hub, and calls `tell` with each event. The code 'BAD_FRAME' means that the link is to be closed.
   *
   * Events: {kind: 'welcomed', tab}, {kind: 'entered', generation, ended: [number ..]}, {kind: 'granted' | 'waiting' |
   * 'notAvailable' | 'lost', number}, {kind: 'answered', number, entries: [{tab, mode, isHeld, name} ..]}, {kind: 'posted',
   * channels: [channel ..]}, {kind: 'other'}, which is reserved: no event has it.
   */
  receive(bytes, tell) {
    for (const piece of pieces(bytes)) {
      const code = this.#part.with([piece], (...words) => this.#part.must('receive', words, ['BAD_FRAME']));
      while (this.#part.must('advance', [], ['IDLE']) === 'OK') this.takeEvents(tell);
      if (code === 'BAD_FRAME') throw new WlbError(code, 'the other side is no host of wlb');
    }
  }

  /** Calls `tell` with each event that waits. `receive` leaves none. `post` leaves one if the tab's own channels took the post. */
  takeEvents(tell) {
    const part = this.#part;
    while (part.must('next_event', [part.result], ['IDLE']) === 'OK') {
      const kind = KINDS[part.u32(0)], number = part.u32(4), count = part.u32(8);
      switch (kind) {
        case 'welcomed': tell({ kind, tab: number }); break;
        case 'entered': tell({ kind, generation: number, ended: this.#items(count) }); break;
        case 'answered': tell({ kind, number, entries: this.#entries(count) }); break;
        case 'posted': tell({ kind, channels: this.#items(count) }); break;
        case 'other': tell({ kind }); break;
        default: tell({ kind, number });
      }
    }
  }

  #items(count) {
    return Array.from({ length: count }, (_, index) => {
      this.#part.must('item', [BigInt(index), this.#part.result]);
      return this.#part.u32(0);
    });
  }

  #entries(count) {
    const part = this.#part;
    return Array.from({ length: count }, (_, index) => {
      part.must('entry', [BigInt(index), part.at(8), ...part.out, part.at(0)]);
      return { tab: part.u16(8), mode: part.u8(10) ? 'shared' : 'exclusive', isHeld: part.u8(11) !== 0, name: part.written(0) };
    });
  }

  /** Takes the output: frames, which have to be sent in this order. */
  * outputs() {
    const part = this.#part;
    for (;;) {
      const code = part.must('next_output', [...part.out, part.at(0)], ['IDLE', 'DROPPED']);
      if (code === 'IDLE') return;
      if (code === 'OK') yield part.written(0);
    }
  }

  /** Requests a lock, and returns the number of the request. `mode` is 'shared' or 'exclusive'. */
  request(name, mode) { return this.#ask('request', name, mode); }

  /** Requests a lock if it is available, and returns the number of the probe. */
  probe(name, mode) { return this.#ask('probe', name, mode); }

  #ask(what, name, mode) {
    const part = this.#part, isShared = lockMode(mode) === 'shared';
    part.with([name], (...words) => part.must(what, [...words, isShared ? 1 : 0, part.result]));
    return part.u32(0);
  }

  /** Queries the locks of the partition, and returns the number of the query. */
  query() {
    this.#part.must('query', [this.#part.result]);
    return this.#part.u32(0);
  }

  /** Aborts a request that is not held. */
  abort(number) { this.#part.must('abort', [number]); }

  /** Releases a lock. */
  release(number) { this.#part.must('release', [number]); }

  /** Puts out again all that the broker has not answered, for a link that loses frames. */
  resend() { this.#part.must('resend'); }

  /** Opens a channel, and returns its number. */
  openChannel(name) {
    const part = this.#part;
    part.with([name], (...words) => part.must('open_channel', [...words, part.result]));
    return part.u32(0);
  }

  /** Posts bytes to all other channels of the name. The tab's own channels have them when this returns. */
  post(channel, data) { this.#part.with([data], (...words) => this.#part.must('post', [channel, ...words])); }

  /** Takes the oldest post out of a channel's inbox: {source, data}, or null if the inbox is empty. */
  read(channel) {
    const part = this.#part;
    const code = part.must('read', [channel, part.at(8), ...part.out, part.at(0)], ['IDLE']);
    return code === 'IDLE' ? null : { source: part.u16(8), data: part.written(0) };
  }

  closeChannel(channel) { this.#part.must('close_channel', [channel]); }

  /** Frees the client. Each later call has the code 'NO_HANDLE'. */
  free() { this.#part.free(); }
}
