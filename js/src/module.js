// Instance of a WebAssembly module of `wlb`: its memory, and the calls of include/wlb.h with JavaScript values.

/** Statuses of include/wlb.h, in their order, without the prefix `WLB_`. */
export const STATUSES = [
  'OK', 'IDLE', 'MEMORY', 'NO_HANDLE', 'BUSY', 'BAD_FRAME', 'DROPPED', 'NO_TAB', 'BAD_TEXT', 'BAD_URL', 'OPAQUE_ORIGIN', 'NUMBER_TAKEN',
  'TOO_MANY_LIVING', 'PARTITION_FULL', 'GENERATIONS_USED_UP', 'NOT_WELCOMED', 'NOT_SUPPORTED', 'NAME_TOO_LONG', 'TOO_MANY',
  'NUMBERS_USED_UP', 'HELD', 'NOTHING', 'NO_CHANNEL', 'CLOSED', 'DATA_TOO_LONG', 'TOO_MANY_CHANNELS', 'POSTS_USED_UP', 'SHORT_BUFFER',
];

/** Limits of include/wlb.h. */
export const FRAME_BYTES = 65540, NAME_BYTES = 255, DATA_BYTES = 16384;

/** Texts of the statuses that a call fails with. */
const MEANINGS = {
  MEMORY: 'out of memory',
  NO_HANDLE: 'the hub or client has been freed',
  NO_TAB: 'no tab of this number lives',
  BAD_TEXT: 'a name has to be UTF-8',
  BAD_URL: 'url and top have to be absolute URLs of at most 2,048 bytes, such as https://app.example/',
  OPAQUE_ORIGIN: 'url and top have to have an origin, unlike data:,x',
  NUMBER_TAKEN: 'the number of the tab is 0, or had a tab before',
  TOO_MANY_LIVING: '1,024 tabs live',
  PARTITION_FULL: '64 tabs of this url and top live',
  GENERATIONS_USED_UP: 'all 65,535 generations of the broker are used up',
  NOT_WELCOMED: 'the client has not received its welcome',
  NOT_SUPPORTED: 'the name of a lock starts with U+002D',
  NAME_TOO_LONG: `a name has at most ${NAME_BYTES} bytes of UTF-8`,
  TOO_MANY: 'the tab has too many locks, requests and queries',
  NUMBERS_USED_UP: 'all 1,000,000 commands of the tab are used up',
  HELD: 'the lock is held: release it instead',
  NOTHING: 'there is no such number',
  NO_CHANNEL: 'the tab has opened no such channel',
  CLOSED: 'the channel is closed',
  DATA_TOO_LONG: `a post has at most ${DATA_BYTES} bytes`,
  TOO_MANY_CHANNELS: 'the tab has 64 open channels',
  POSTS_USED_UP: 'all 1,000,000 posts of the tab are used up',
};

/** Error of a call of the module. `code` is the status without its prefix, for instance 'TOO_MANY'. */
export class WlbError extends Error {
  constructor(code, meaning = MEANINGS[code]) {
    super(meaning ? `${code}: ${meaning}` : code);
    this.name = 'WlbError';
    this.code = code;
  }
}

/** The modules that come with the package. They have 32-bit memory, which all engines have. */
export const HUB = new URL('../dist/wlb_hub32.wasm', import.meta.url), CLIENT = new URL('../dist/wlb_client32.wasm', import.meta.url);

/** Compiles a module from its bytes, from a Response or from a URL. A compiled module is returned as it is. */
export async function compile(source) {
  if (source instanceof WebAssembly.Module) return source;
  if (typeof source === 'string' || source instanceof URL) source = await read(source);
  if (typeof Response === 'function' && source instanceof Response) source = await source.arrayBuffer();
  return WebAssembly.compile(source);
}

/** Reads a URL. The `fetch` of Node takes no files. */
async function read(url) {
  if (!`${url}`.startsWith('file:')) return fetch(url);
  const { readFile } = await import('node:fs/promises');
  return readFile(new URL(url));
}

const ADDRESS_BYTES = 8n;
// The struct of a handle is an address and a flag.
const HANDLE_BYTES = 16n, RESULT_BYTES = 64n;

/** Instance of a module with one handle. `kind` is 'hub' or 'client'. */
export class Part {
  #exports;
  #kind;
  #bytes = new Uint8Array(0);
  #view = null;
  #handle;
  #room;
  #isBroken = false;

  static async create(source, kind) {
    return new Part(await WebAssembly.instantiate(await compile(source), {}), kind);
  }

  constructor(instance, kind) {
    this.#exports = instance.exports;
    this.#kind = kind;
    [this.#handle, this.result, this.#room] = [HANDLE_BYTES, RESULT_BYTES, BigInt(FRAME_BYTES)].map(length => this.#allocate(length));
    this.#memory().fill(0, Number(this.#handle), Number(this.#handle + HANDLE_BYTES));
    this.must('new');
  }

  /** Calls a function of the header on the handle, and returns its status. Addresses and lengths are of the type BigInt. */
  call(name, ...words) {
    if (this.#isBroken) throw new Error('the module has failed, and cannot be used any more');
    try {
      return this.#exports[`wlb_${this.#kind}_${name}`](this.#handle, ...words);
    } catch (error) {
      this.#isBroken = true;
      throw error;
    }
  }

  /** Calls a function, and returns its status 'OK' or one of those that are expected. Throws a WlbError for any other one. */
  must(name, words = [], expected = []) {
    const code = STATUSES[this.call(name, ...words)];
    if (code !== 'OK' && !expected.includes(code)) throw new WlbError(code);
    return code;
  }

  /** Calls `run` with address and length of a copy of each byte sequence. */
  with(sequences, run) {
    sequences.forEach(checkBytes);
    const total = sequences.reduce((sum, bytes) => sum + bytes.length, 0);
    const room = total <= FRAME_BYTES ? this.#room : this.#allocate(BigInt(total));
    try {
      let at = room;
      return run(...sequences.flatMap(bytes => {
        this.#memory().set(bytes, Number(at));
        const words = [at, BigInt(bytes.length)];
        at += BigInt(bytes.length);
        return words;
      }));
    } finally {
      if (room !== this.#room) this.#exports.host_free(room);
    }
  }

  /** Address and capacity for bytes that a call writes. */
  get out() { return [this.#room, BigInt(FRAME_BYTES)]; }

  /** Returns a copy of the bytes that a call has written. The call has put their length at an offset of `result`. */
  written(at) {
    const length = Number(this.dataView().getBigUint64(Number(this.result) + at, true)), from = Number(this.#room);
    return this.#memory().slice(from, from + length);
  }

  u8(at) { return this.dataView().getUint8(Number(this.result) + at); }
  u16(at) { return this.dataView().getUint16(Number(this.result) + at, true); }
  u32(at) { return this.dataView().getUint32(Number(this.result) + at, true); }
  u64(at) { return Number(this.dataView().getBigUint64(Number(this.result) + at, true)); }

  /** Address at an offset of `result`. */
  at(offset) { return this.result + BigInt(offset); }

  /** Frees what the handle holds. */
  free() { this.call('free'); }

  #allocate(length) {
    const at = this.#exports.host_allocate(length + ADDRESS_BYTES);
    if (at === 0n) throw new WlbError('MEMORY');
    return at;
  }

  #memory() {
    if (this.#bytes.buffer !== this.#exports.memory.buffer) {
      this.#bytes = new Uint8Array(this.#exports.memory.buffer);
      this.#view = new DataView(this.#exports.memory.buffer);
    }
    return this.#bytes;
  }

  dataView() {
    this.#memory();
    return this.#view;
  }
}

/** A text or an ArrayBuffer would be copied as zeros, or as nothing. Bytes may come from another realm. */
function checkBytes(bytes) {
  if (!ArrayBuffer.isView(bytes) || bytes.BYTES_PER_ELEMENT !== 1) throw new TypeError('names, frames and data have to be Uint8Arrays');
}

/** Cuts bytes into pieces that fit into the room of a Part. */
export function* pieces(bytes) {
  checkBytes(bytes);
  for (let at = 0; at < bytes.length; at += FRAME_BYTES) yield bytes.subarray(at, at + FRAME_BYTES);
}
