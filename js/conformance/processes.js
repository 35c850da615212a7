// Contexts of the suite as Node processes, which `wlb kernel` has started as its tabs. A kernel reads its whole script first, so it
// starts all tabs of a test at once. A context becomes one of them when it is needed.

import { Kernel } from '../lab/kernel.js';
import { HOSTS } from './plan.js';

export class Processes {
  /** Frames that need a tab of their own are processes of their own. Their tabs have no order among them: see run.js. */
  inStep;
  #kernel;
  #idle = []; // {tab, top, own}
  #comes = new Map(); // tab -> function for its context's messages

  static async open(test, arePairs) {
    const processes = new Processes(), wanted = [[HOSTS.own, HOSTS.own, 1], ...(test.tabs ?? [])];
    processes.inStep = Boolean(test.framesHaveTabs);
    const pairs = wanted.flatMap(([top, own, count]) => Array(count).fill({ top: new URL(top).origin, own: new URL(own).origin }));
    const opens = pairs.map(({ top, own }) => ({ url: `${own}/`, top: top !== own || arePairs ? `${top}/` : undefined }));
    const come = (tab, message) => processes.#come(tab, message, pairs[tab.id]);
    processes.#kernel = new Kernel(new URL('process.js', import.meta.url), opens, come);
    await processes.#kernel.ready(opens.length);
    return processes;
  }

  #come(tab, message, pair) {
    if (message.op === 'ready') this.#idle.push({ tab, ...pair });
    else this.#comes.get(tab)?.(message);
  }

  start(spec, top, own, come, fail) {
    const at = this.#idle.findIndex(one => one.top === top && one.own === own);
    if (at < 0) {
      fail(`the plan has no more tabs of ${own} under ${top}`);
      return { post() {}, kill() {} };
    }
    const [{ tab }] = this.#idle.splice(at, 1);
    this.#comes.set(tab, message => (message.op === 'closed' ? fail('its link has ended') : come(message)));
    this.#kernel.send(tab, { op: 'run', spec: this.inStep ? { ...spec, framesAreLocal: false } : spec });
    return { post: message => this.#kernel.send(tab, message), kill: () => this.#kernel.kill(tab) };
  }

  restart() { return this.#kernel.killBroker(); }

  close() {
    this.#comes.clear();
    return this.#kernel.end();
  }
}
