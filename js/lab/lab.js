// Hosts and tabs for the tests and the conformance runner. WLB_MODULES names another folder of the modules than `js/dist`.

import fs from 'node:fs';
import path from 'node:path';
import { fileURLToPath } from 'node:url';
import { Host, connect, linkPair } from '../src/index.js';

export const modules = process.env.WLB_MODULES ?? fileURLToPath(new URL('../dist', import.meta.url));

function module(name) {
  const file = path.join(modules, name);
  if (!fs.existsSync(file)) {
    console.error(`there is no ${file}: \`git checkout js/dist\` restores the committed modules`);
    process.exit(1);
  }
  return new WebAssembly.Module(fs.readFileSync(file));
}

export const hubModule = module('wlb_hub32.wasm');
export const clientModule = module('wlb_client32.wasm');
export const URL_A = 'https://a.test/page', URL_B = 'https://b.test/';

/** A host with tabs in this event loop. The tabs are closed at the end of the test `t`. */
export class Lab {
  tabs = [];

  static async of(t, ...urls) {
    const lab = new Lab();
    lab.host = await Host.create(hubModule);
    t.after(() => { for (const tab of lab.tabs) tab.close(); });
    for (const url of urls) await lab.open(url);
    return lab;
  }

  /** Opens a tab. `wrap` makes another link of the tab's own. */
  async open(url, top, wrap = link => link) {
    const [mine, theirs] = linkPair();
    this.host.accept(theirs, { url, top });
    const tab = await connect(wrap(mine), clientModule);
    this.tabs.push(tab);
    return tab;
  }
}

/** A link that sends `milliseconds` late. */
export function late(link, milliseconds) {
  return { ...link, send: bytes => { setTimeout(() => link.send(bytes), milliseconds); } };
}

/** A promise with its functions. */
export function deferred() {
  const made = {};
  made.promise = new Promise((resolve, reject) => Object.assign(made, { resolve, reject }));
  return made;
}

/** Holds a lock until `release` is called. `ended` is the promise of the request. */
export async function hold(tab, name, options = {}) {
  const granted = deferred(), until = deferred();
  const ended = tab.locks.request(name, options, lock => {
    granted.resolve(lock);
    return until.promise;
  });
  ended.catch(granted.reject);
  const lock = await granted.promise;
  return { lock, ended, release: until.resolve, fail: until.reject };
}

/** Waits until a query shows `held` locks and `pending` requests of a name, and returns that snapshot. */
export async function seen(tab, name, held, pending) {
  for (;;) {
    const snapshot = await tab.locks.query();
    const count = list => list.filter(info => info.name === name).length;
    if (count(snapshot.held) === held && count(snapshot.pending) === pending) return snapshot;
  }
}

/** Returns whether a lock is available. */
export function isAvailable(tab, name, mode = 'exclusive') {
  return tab.locks.request(name, { mode, ifAvailable: true }, lock => lock !== null);
}
