// Shared memory of the stress over threads: the locks that each line holds, and counters under locks.

import { LINES, NAMES } from './soak_lines.js';

/** The most tabs of a run. */
export const SLOTS = 1000;
const ROWS = SLOTS * LINES, ROW = 2 + 2 * NAMES;
const SHARED = 1, EXCLUSIVE = 2;
// A row: whether its tab runs, the name whose counter is being raised or 0, and for each name what is held, and the sections.
const RAISING = 1, HOLDS = 2, SECTIONS = 2 + NAMES;

export class Board {
  #cells;

  /** Cells: the meetings, a counter for each name, and a row for each line of each tab. */
  static memory() { return new SharedArrayBuffer(4 * (1 + NAMES + ROWS * ROW)); }

  constructor(memory) {
    this.memory = memory;
    this.#cells = new Int32Array(memory);
  }

  #row(line) { return 1 + NAMES + line * ROW; }

  #rowsOf(slot) { return Array.from({ length: LINES }, (_, line) => this.#row(slot * LINES + line)); }

  enter(slot) { for (const row of this.#rowsOf(slot)) Atomics.store(this.#cells, row, 1); }
  leave(slot) { for (const row of this.#rowsOf(slot)) Atomics.store(this.#cells, row, 0); }

  /** Notes that a line holds a lock, and counts holders that exclude it. */
  hold(slot, line, name, mode) {
    const own = this.#row(slot * LINES + line);
    Atomics.store(this.#cells, own + HOLDS + name, mode === 'shared' ? SHARED : EXCLUSIVE);
    for (let other = 0; other < ROWS; other++) {
      const row = this.#row(other);
      if (row === own || !Atomics.load(this.#cells, row)) continue;
      const held = Atomics.load(this.#cells, row + HOLDS + name);
      if (held === EXCLUSIVE || (held === SHARED && mode !== 'shared')) Atomics.add(this.#cells, 0, 1);
    }
  }

  drop(slot, line, name) { Atomics.store(this.#cells, this.#row(slot * LINES + line) + HOLDS + name, 0); }

  count(name) { return this.#cells[1 + name]; }

  /** Sets the counter of a name, and notes the section. */
  add(slot, line, name, count) {
    const row = this.#row(slot * LINES + line);
    Atomics.store(this.#cells, row + RAISING, 1 + name);
    Atomics.store(this.#cells, 1 + name, count);
    Atomics.add(this.#cells, row + SECTIONS + name, 1);
    Atomics.store(this.#cells, row + RAISING, 0);
  }

  /** Sections noted for a name, and killed lines that may or may not have raised the counter. */
  notes(name) {
    let sum = 0, unclear = 0;
    for (let line = 0; line < ROWS; line++) {
      sum += this.#cells[this.#row(line) + SECTIONS + name];
      if (this.#cells[this.#row(line) + RAISING] === 1 + name) unclear++;
    }
    return { sum, unclear };
  }

  get meetings() { return this.#cells[0]; }
}
