// Hub: kernel and broker of all tabs, behind bytes.

import { HUB, Part, WlbError, pieces } from './module.js';

const encoder = new TextEncoder();

/**
 * The kernel and the broker of all tabs. It has no link and no timer: the caller gives it the bytes of each tab and sends its output.
 *
 * A call that is refused throws a WlbError, whose `code` is a status of include/wlb.h. If `receive` or `close` throws 'MEMORY', replace
 * the hub: a part of its input is lost or waits. Other calls can be repeated.
 */
export class Hub {
  #part;

  /** Makes a hub from the module `wlb/hub.wasm`: its bytes, its URL, a Response, or the compiled module. */
  static async create(source = HUB) { return new Hub(await Part.create(source, 'hub')); }

  constructor(part) { this.#part = part; }

  /** Opens a tab of a top-level document. `tab` is a number from 1 to 65,535 that this hub has not had. */
  open(tab, url) {
    numberOf(tab);
    this.#part.with([encoder.encode(url)], (...own) => this.#part.must('open', [tab, ...own]));
  }

  /** Opens a tab of documents with the URL `own` under a top-level document with the URL `top`. */
  openPair(tab, top, own) {
    numberOf(tab);
    this.#part.with([encoder.encode(top), encoder.encode(own)], (...urls) => this.#part.must('open_pair', [tab, ...urls]));
  }

  /** Closes a tab that has stopped running: its locks go to other tabs. */
  close(tab) {
    this.#part.must('close', [numberOf(tab)]);
    this.#advance();
  }

  /**
   * Takes bytes of a tab, and handles the frames in them. The code 'BAD_FRAME' means that the tab is broken or hostile, and has to be
   * closed. Frames in front of the fault are handled.
   */
  receive(tab, bytes) {
    numberOf(tab);
    for (const piece of pieces(bytes)) {
      const code = this.#part.with([piece], (...words) => this.#part.must('receive', [tab, ...words], ['BAD_FRAME']));
      this.#advance();
      if (code === 'BAD_FRAME') throw new WlbError(code, 'the other side is no tab of wlb');
    }
  }

  #advance() {
    while (this.#part.must('advance', [], ['IDLE']) === 'OK');
  }

  /** Starts the broker of the next generation. The first call starts the first one. A broker that is up loses its state. */
  restart() {
    this.#part.must('restart');
    this.#advance();
  }

  /** Takes the output: pairs of a tab and a frame for it. The frames of a tab have to be sent in this order. */
  * outputs() {
    const part = this.#part;
    for (;;) {
      const code = part.must('next_output', [part.at(8), ...part.out, part.at(0)], ['IDLE', 'DROPPED']);
      if (code === 'IDLE') return;
      if (code === 'OK') yield [part.u16(8), part.written(0)];
    }
  }

  /** Returns whether a tab was opened and is not closed. */
  isLiving(tab) { return this.#part.call('is_living', numberOf(tab)) !== 0; }

  /** Numbers of the hub: the generation of the broker or 0, living tabs, dead tabs that the broker was not told of, and frames. */
  status() {
    const part = this.#part;
    part.must('status', [part.result]);
    return { generation: part.u32(0), living: part.u32(4), untold: part.u32(8), outputs: part.u64(16) };
  }

  /** Frees the hub. Later calls throw 'NO_HANDLE'; `isLiving` returns false. */
  free() { this.#part.free(); }
}

/** A number outside of 16 bits would be cut off by the call. */
function numberOf(tab) {
  if (!Number.isInteger(tab) || tab < 0 || tab > 0xffff) throw new RangeError('a tab is a number up to 65,535');
  return tab;
}
