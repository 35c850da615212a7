// The loop that speed.js measures, in Node and in browsers.

const WARM = 200;

/** Requests a lock again and again. Returns the locks a second, and the median of microseconds until a lock is granted. */
export async function measure(locks, name, rounds) {
  for (let n = 0; n < WARM; n++) await locks.request(name, () => {});
  const waits = [], begin = performance.now();
  for (let n = 0; n < rounds; n++) {
    const asked = performance.now();
    await locks.request(name, () => { waits.push(performance.now() - asked); });
  }
  const seconds = (performance.now() - begin) / 1000;
  waits.sort((one, other) => one - other);
  return { rate: rounds / seconds, median: 1000 * waits[rounds >> 1] };
}
