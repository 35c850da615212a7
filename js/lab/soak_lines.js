// Actions of the stress's tabs. Each tab has lines that request, probe, abort and query at random.

export const NAMES = 3, LINES = 3;

/** Returns a function that draws a number below another one: a linear congruential generator. */
export function dice(seed) {
  let state = [...`${seed}`].reduce((sum, letter) => Math.imul(sum, 31) + letter.codePointAt(0), 7);
  return below => {
    state = (Math.imul(state, 1664525) + 1013904223) >>> 0;
    return Math.floor(state / 2 ** 32 * below);
  };
}

/** Longest section, in milliseconds. A client that forgets its locks needs long ones, to hold a lock at a restart. */
export const longest = (wrong, usual) => (wrong === 'forgetful' ? 60 : usual);

export const pause = milliseconds => new Promise(resolve => (milliseconds ? setTimeout(resolve, milliseconds) : setImmediate(resolve)));

/**
 * Plays the lines of a tab with this number until `isOver()`. `section(line, name, mode)` runs under the lock. Returns counts by kind.
 */
export async function play(locks, tab, random, section, isOver) {
  const sums = { sections: 0, probes: 0, aborts: 0, queries: 0 };
  const waiting = new Set(); // requests that wait, as {name, mode}

  const one = async line => {
    const name = random(NAMES), mode = random(2) ? 'shared' : 'exclusive', own = { name: `${name}`, mode };
    const enter = lock => {
      waiting.delete(own);
      if (!lock) return undefined;
      sums.sections++;
      return section(line, name, mode);
    };
    switch (random(6)) {
      case 0:
        sums.probes++;
        return locks.request(`${name}`, { mode, ifAvailable: true }, enter);
      case 1: {
        const aborts = new AbortController();
        waiting.add(own);
        setTimeout(() => {
          waiting.delete(own);
          aborts.abort('late');
        }, random(6));
        return locks.request(`${name}`, { mode, signal: aborts.signal }, enter).catch(reason => {
          if (reason !== 'late') throw reason;
          sums.aborts++;
        });
      }
      case 2:
        sums.queries++;
        return query(locks, tab, waiting);
      default:
        waiting.add(own);
        return locks.request(`${name}`, { mode }, enter);
    }
  };

  await Promise.all(Array.from({ length: LINES }, async (_, line) => { while (!isOver()) await one(line); }));
  return sums;
}

/** Queries, and checks the snapshot. Requests that have waited since before the query stand in it. */
async function query(locks, tab, waiting) {
  const before = [...waiting];
  const snapshot = await locks.query().catch(error => {
    if (error.name !== 'OperationError') throw error;
    return null;
  });
  const fault = snapshot && faultOf(snapshot, `${tab}`, before.filter(own => waiting.has(own)));
  if (fault) throw new Error(fault);
}

const exclude = (one, other) => one.name === other.name && (one.mode === 'exclusive' || other.mode === 'exclusive');

/** Returns what is wrong with a snapshot, or null. The requests `own`, as {name, mode}, of the tab `clientId` still wait. */
export function faultOf({ held, pending }, clientId, own) {
  if (held.some((one, place) => held.some((other, later) => later > place && exclude(one, other)))) return 'a snapshot shows two holders';
  const isObstructed = (one, place) => held.some(other => exclude(one, other)) || pending.slice(0, place).some(other => other.name === one.name);
  if (!pending.every(isObstructed)) return 'a request waits for a lock that nobody holds';
  const count = (list, one) => list.filter(other => other.name === one.name && other.mode === one.mode).length;
  const known = pending.filter(one => one.clientId === clientId);
  if (own.some(one => count(known, one) < count(own, one))) return 'a tab waits with a request that the broker does not have';
  return null;
}

/** The locks of a client that does not wait for its locks. */
export function hasty(locks) {
  return {
    request: async (name, options, callback) => callback({ name, mode: options.mode }),
    query: () => locks.query(),
  };
}

const REPORT = 2, HELD = 1, HEAD = 16;

/** Link of a client that leaves held locks out of its reports. */
export function forgetful(link) {
  return { ...link, send: bytes => link.send(withoutHeld(bytes)) };
}

/** Leaves the held locks out of all reports (docs/PROTOCOL.md). */
function withoutHeld(bytes) {
  const kept = [];
  for (let at = 0; at < bytes.length;) {
    const end = at + 4 + new DataView(bytes.buffer, bytes.byteOffset).getUint32(at), frame = bytes.subarray(at, end);
    kept.push(...(frame[5] === REPORT ? emptied(frame) : frame));
    at = end;
  }
  return Uint8Array.from(kept);
}

/** A report of version 1 without its entries of held locks. */
function emptied(report) {
  const entries = [];
  for (let at = HEAD; at < report.length;) {
    const end = at + 7 + report[at + 6];
    if (report[at + 4] !== HELD) entries.push(report.subarray(at, end));
    at = end;
  }
  const made = new Uint8Array(HEAD + entries.reduce((sum, entry) => sum + entry.length, 0)), view = new DataView(made.buffer);
  made.set(report.subarray(0, HEAD));
  view.setUint32(0, made.length - 4);
  view.setUint16(HEAD - 2, entries.length);
  let at = HEAD;
  for (const entry of entries) {
    made.set(entry, at);
    at += entry.length;
  }
  return made;
}
