// LockManager and Lock of the Web Locks API, over the agent of a tab. Step numbers are from section 3.2 of the draft.

import { WlbError } from './module.js';
import { encodeName, decodeName } from './names.js';
import { INTERNAL, expose, illegal, lockMode } from './webidl.js';

/** A granted lock. */
export class Lock {
  #name;
  #mode;

  constructor(key, name, mode) {
    if (key !== INTERNAL) throw illegal();
    this.#name = name;
    this.#mode = mode;
  }

  get name() { return this.#name; }
  get mode() { return this.#mode; }
}
expose(Lock, 'name', 'mode');

/** The locks of a tab. */
export class LockManager {
  #agent;

  constructor(key, agent) {
    if (key !== INTERNAL) throw illegal();
    this.#agent = agent;
  }

  request(name, options, callback) {
    try {
      const agent = this.#agent;
      if (arguments.length < 2) throw new TypeError('request needs a name and a callback');
      name = `${name}`;
      if (arguments.length === 2) [options, callback] = [undefined, options];
      options = lockOptions(options);
      if (typeof callback !== 'function') throw new TypeError('the callback is not a function');
      check(agent, name, options);
      return new Request(agent, name, options, callback).promise;
    } catch (error) {
      return Promise.reject(error);
    }
  }

  query() {
    try {
      const agent = this.#agent;
      if (agent.isClosed) throw inactive();
      return snapshot(agent);
    } catch (error) {
      return Promise.reject(error);
    }
  }
}
expose(LockManager, 'request', 'query');

export function lockManagerOf(agent) {
  return new LockManager(INTERNAL, agent);
}

const refusal = (name, message) => new DOMException(message, name);
const inactive = () => refusal('InvalidStateError', 'the link to the lock manager is closed');
const lost = () => refusal('AbortError', 'the link to the lock manager was closed');

/** Converts a LockOptions dictionary. Members are read in the order of their names. */
function lockOptions(value) {
  if (value === undefined || value === null) value = {};
  if (typeof value !== 'object' && typeof value !== 'function') throw new TypeError('the options are not an object');
  const options = { ifAvailable: Boolean(value.ifAvailable), mode: 'exclusive', signal: undefined, steal: false };
  const { mode } = value;
  if (mode !== undefined) options.mode = lockMode(mode);
  const { signal } = value;
  if (signal !== undefined) {
    if (!(signal instanceof AbortSignal)) throw new TypeError('the signal is not an AbortSignal');
    options.signal = signal;
  }
  options.steal = Boolean(value.steal);
  return options;
}

/** Steps 3 to 9 of `request()`, and the refusal of `steal`. */
function check(agent, name, { ifAvailable, mode, signal, steal }) {
  if (agent.isClosed) throw inactive();
  if (name.startsWith('-')) throw refusal('NotSupportedError', 'the name starts with U+002D');
  if (steal && ifAvailable) throw refusal('NotSupportedError', 'steal and ifAvailable exclude each other');
  if (steal && mode !== 'exclusive') throw refusal('NotSupportedError', 'steal needs the mode "exclusive"');
  if (signal && (steal || ifAvailable)) throw refusal('NotSupportedError', 'a signal excludes steal and ifAvailable');
  if (signal?.aborted) throw signal.reason;
  if (steal) throw refusal('NotSupportedError', 'steal is not supported');
}

/** Converts a WlbError into the error that the page gets. */
function errorOf(error) {
  if (!(error instanceof WlbError)) return error;
  switch (error.code) {
    case 'NAME_TOO_LONG': return new TypeError('a name has at most 255 bytes of UTF-8');
    case 'NOT_SUPPORTED': return refusal('NotSupportedError', 'the name starts with U+002D');
    case 'TOO_MANY': return refusal('QuotaExceededError', 'the tab has too many locks, requests and queries');
    case 'NUMBERS_USED_UP': return refusal('QuotaExceededError', 'the tab has made all of its requests: close it, and connect anew');
    case 'MEMORY': return new RangeError('out of memory');
    default: return error;
  }
}

/** Request of a lock, from the call to the end of its lock. */
class Request {
  #agent;
  #name;
  #options;
  #callback;
  #number;
  #state = 'waiting'; // then 'granted', 'held' and 'over'
  #onabort = null;
  #resolve;
  #reject;

  constructor(agent, name, options, callback) {
    this.#agent = agent;
    this.#name = name;
    this.#options = options;
    this.#callback = callback;
    this.promise = new Promise((resolve, reject) => {
      this.#resolve = resolve;
      this.#reject = reject;
    });
    const { signal } = options;
    this.#ask(options.ifAvailable);
    if (!signal) return;
    this.#onabort = () => this.#abort();
    signal.addEventListener('abort', this.#onabort, { once: true });
  }

  /** A probe that a restart of the broker has taken away is asked once more, behind all that has come from the broker. */
  #ask(mayAskAgain) {
    const { mode, ifAvailable } = this.#options;
    try {
      this.#number = this.#agent.ask(encodeName(this.#name), mode, ifAvailable, kind => {
        if (kind === 'granted') this.#grant();
        else if (kind === 'closed') this.#close();
        else if (kind === 'ended' && mayAskAgain) this.#agent.tasks.queue(() => this.#ask(false));
        else this.#agent.tasks.queue(() => this.#resolve(this.#call(null)));
      });
    } catch (error) {
      this.#end();
      this.#reject(errorOf(error));
    }
  }

  #grant() {
    this.#state = 'granted';
    this.#agent.tasks.queue(() => {
      if (this.#state !== 'granted') return;
      this.#state = 'held';
      this.#ignoreSignal();
      const waiting = this.#call(new Lock(INTERNAL, this.#name, this.#options.mode));
      const settled = () => this.#release(waiting);
      waiting.then(settled, settled);
    });
  }

  #release(waiting) {
    if (this.#state !== 'held') return;
    this.#end();
    this.#agent.release(this.#number, () => this.#agent.tasks.queue(() => this.#resolve(waiting)));
  }

  #abort() {
    if (this.#state === 'granted') this.#agent.release(this.#number);
    else if (this.#state === 'waiting') this.#agent.abort(this.#number);
    else return;
    this.#end();
    this.#reject(this.#options.signal.reason);
  }

  /** The link has ended: the lock is lost, as one that was stolen, and so is the request. */
  #close() {
    if (this.#state === 'over') return;
    this.#end();
    this.#reject(lost());
  }

  #end() {
    this.#state = 'over';
    this.#ignoreSignal();
  }

  #ignoreSignal() {
    if (this.#onabort) this.#options.signal.removeEventListener('abort', this.#onabort);
    this.#onabort = null;
  }

  /** Calls the callback, and returns a promise of its result. */
  #call(lock) {
    try {
      const callback = this.#callback;
      return Promise.resolve(callback(lock));
    } catch (error) {
      return Promise.reject(error);
    }
  }
}

/** `query()`. A query that a restart has taken away is asked once more, as a probe is. */
function snapshot(agent) {
  return new Promise((resolve, reject) => {
    const ask = mayAskAgain => {
      try {
        agent.query((kind, entries) => {
          if (kind === 'answered') agent.tasks.queue(() => resolve(snapshotOf(entries)));
          else if (kind === 'ended' && mayAskAgain) agent.tasks.queue(() => ask(false));
          else if (kind === 'closed') reject(lost());
          else reject(refusal('OperationError', 'the lock manager was restarted'));
        });
      } catch (error) {
        reject(errorOf(error));
      }
    };
    ask(true);
  });
}

function snapshotOf(entries) {
  const list = isHeld => entries.filter(entry => entry.isHeld === isHeld)
    .map(({ tab, mode, name }) => ({ clientId: `${tab}`, mode, name: decodeName(name) }));
  return { held: list(true), pending: list(false) };
}
