// Declarations of the package. The first part is the IDL of Web Locks and of BroadcastChannel.

export type LockMode = 'exclusive' | 'shared';

export interface LockOptions {
  mode?: LockMode;
  ifAvailable?: boolean;
  /** Not supported: a request that steals is rejected with a "NotSupportedError". */
  steal?: boolean;
  signal?: AbortSignal;
}

export interface LockInfo {
  clientId: string;
  mode: LockMode;
  name: string;
}

export interface LockManagerSnapshot {
  held: LockInfo[];
  pending: LockInfo[];
}

export type LockGrantedCallback<T> = (lock: Lock | null) => T;

export class Lock {
  private constructor();
  readonly name: string;
  readonly mode: LockMode;
}

export class LockManager {
  private constructor();
  request<T>(name: string, callback: LockGrantedCallback<T>): Promise<Awaited<T>>;
  request<T>(name: string, options: LockOptions, callback: LockGrantedCallback<T>): Promise<Awaited<T>>;
  query(): Promise<LockManagerSnapshot>;
}

export interface BroadcastChannel extends EventTarget {
  readonly name: string;
  onmessage: ((this: BroadcastChannel, event: MessageEvent) => unknown) | null;
  onmessageerror: ((this: BroadcastChannel, event: MessageEvent) => unknown) | null;
  postMessage(message: unknown): void;
  close(): void;
}

// ---- Modules

/** Bytes of a module, its URL, a Response with it, or the compiled module. By default it is the module that comes with the package. */
export type ModuleSource = BufferSource | string | URL | Response | WebAssembly.Module;

export function compile(source: ModuleSource): Promise<WebAssembly.Module>;

/** `code` is a status of include/wlb.h without its prefix, for instance "TOO_MANY". The message begins with it. */
export class WlbError extends Error {
  readonly code: string;
}

// ---- Links

export interface Link {
  /** `closed` is called once, also if the link ended before. */
  start(receive: (bytes: Uint8Array) => void, closed: (error: Error | null) => void): void;
  send(bytes: Uint8Array): void;
  close(): void;
  /** Whether the other side may drop whole frames. A tab then sends its report and all that waits again. */
  losesFrames?: boolean;
}

/** Functions that a link uses of a MessagePort of a browser, of node:worker_threads, or of Electron (`on`). */
export interface Port {
  postMessage(message: any): void;
  start(): void;
  close(): void;
  addEventListener?(type: any, listener: (event: any) => void): void;
  on?(type: any, listener: (event: any) => void): unknown;
}

export function portLink(port: Port): Link;
/** `socket` is a net.Socket of Node. */
export function socketLink(socket: any): Link;
/** Rejects with the error of node:net, for instance ENOENT or ECONNREFUSED if nobody listens. */
export function connectSocket(path: string): Promise<Link>;
export function linkPair(): [Link, Link];
/** Several links over one MessagePort, which keeps the order of all frames. */
export class LinkBundle {
  constructor(port: Port, opened?: ((link: Link, details: unknown) => void) | null);
  open(details: unknown): Link;
  close(): void;
}
/** `scope` is the global object of a SharedWorker. */
export function serveSharedWorker(scope: any, host: Host | Promise<Host>): void;
/** `worker` is a SharedWorker. */
export function sharedWorkerLink(worker: any): Link;

// ---- Host and tab

export interface HubNumbers {
  /** Generation of the broker, or 0 if none is up. */
  generation: number;
  /** Living tabs. */
  living: number;
  /** Dead tabs that the broker was not told of. */
  untold: number;
  /** Frames that wait to be sent. A Host sends them at once. */
  outputs: number;
}

export class Host {
  static create(hub?: ModuleSource): Promise<Host>;
  constructor(hub: Hub);
  /** Makes a tab of a link, and returns its number. Throws a WlbError or a TypeError for a refused tab, and closes its link. */
  accept(link: Link, options: { url: string; top?: string }): number;
  /** Closes a tab that has stopped. */
  close(tab: number): void;
  /** Restarts the broker. */
  restart(): void;
  status(): HubNumbers;
}

export class Tab {
  private constructor();
  /** The `clientId` of a query, as a number. */
  readonly id: number;
  readonly origin: string;
  readonly generation: number;
  /** Resolves when the link has ended. */
  readonly closed: Promise<Error | null>;
  readonly locks: LockManager;
  readonly BroadcastChannel: new (name: string) => BroadcastChannel;
  close(): void;
}

/** Rejects if the link ends before the host's welcome. */
export function connect(link: Link, client?: ModuleSource): Promise<Tab>;

// ---- Hub and client, by their bytes

export class Hub {
  static create(hub?: ModuleSource): Promise<Hub>;
  private constructor();
  open(tab: number, url: string): void;
  openPair(tab: number, top: string, own: string): void;
  close(tab: number): void;
  receive(tab: number, bytes: Uint8Array): void;
  restart(): void;
  outputs(): Generator<[tab: number, frame: Uint8Array], void>;
  isLiving(tab: number): boolean;
  status(): HubNumbers;
  free(): void;
}

export interface Entry {
  tab: number;
  mode: LockMode;
  isHeld: boolean;
  name: Uint8Array;
}

export type ClientEvent =
  | { kind: 'welcomed'; tab: number }
  | { kind: 'entered'; generation: number; ended: number[] }
  | { kind: 'granted' | 'waiting' | 'notAvailable' | 'lost'; number: number }
  | { kind: 'answered'; number: number; entries: Entry[] }
  | { kind: 'posted'; channels: number[] }
  | { kind: 'other' };

export class Client {
  static create(client?: ModuleSource): Promise<Client>;
  private constructor();
  receive(bytes: Uint8Array, tell: (event: ClientEvent) => void): void;
  /** After `post`, tells of the tab's own channels that have the post. */
  takeEvents(tell: (event: ClientEvent) => void): void;
  outputs(): Generator<Uint8Array, void>;
  request(name: Uint8Array, mode: LockMode): number;
  probe(name: Uint8Array, mode: LockMode): number;
  query(): number;
  abort(number: number): void;
  release(number: number): void;
  resend(): void;
  openChannel(name: Uint8Array): number;
  post(channel: number, data: Uint8Array): void;
  read(channel: number): { source: number; data: Uint8Array } | null;
  closeChannel(channel: number): void;
  free(): void;
}
