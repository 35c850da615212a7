// `wlb kernel` with Node processes as its tabs.
//
// The kernel starts its tabs and brokers by the name that it was started by. Here that is a shell script. It becomes a Node process for
// the word `tab`, notes the process of a broker, and is the program otherwise (docs/OPERATING.md, "Children"). Each tab
// also has a control socket to the process that has started the kernel.

import { spawn } from 'node:child_process';
import { once } from 'node:events';
import fs from 'node:fs';
import net from 'node:net';
import os from 'node:os';
import path from 'node:path';
import { fileURLToPath } from 'node:url';
import { receive, send } from './control.js';

const built = fileURLToPath(new URL('../../crates/wlb/out/wlb', import.meta.url));
const LATE = Symbol('late'), KILLED = 128 + os.constants.signals.SIGKILL;
const PRINTED = /^(up \d+|opened \d+ \S+( \S+)?|ended \d+ \d+|SecurityError)$/;

export const sleep = ms => new Promise(resolve => setTimeout(resolve, ms));
const within = (promise, ms) => Promise.race([promise, sleep(ms).then(() => LATE)]);
const quoted = text => `'${text.replaceAll("'", "'\\''")}'`;

/** The program: WLB_PROGRAM, or crates/wlb/out/wlb. If WLB_PROGRAM is empty, there is none. */
export const program = process.env.WLB_PROGRAM === '' ? null : path.resolve(process.env.WLB_PROGRAM ?? built);

/** The reason why processes of `wlb kernel` cannot run, or false. */
export const noProgram = program && fs.existsSync(program) ? false : 'there is no program `wlb`: run `make build`, or set WLB_PROGRAM';

/** Ends the script with that reason if there is one. */
export function needProgram() {
  if (!noProgram) return;
  console.error(noProgram);
  process.exit(1);
}

/** Returns whether this process has the path among its arguments. Another process may have got its number. */
function isOf(number, folder) {
  try {
    return fs.readFileSync(`/proc/${number}/cmdline`, 'utf8').split('\0').some(word => word.startsWith(folder));
  } catch {
    return false;
  }
}

export class Kernel {
  /** Tabs that have connected: id -> {id, process, number, origin, isKilled, ..}. */
  tabs = new Map();
  /** Is resolved when the kernel has ended. */
  ended;
  #stage = fs.mkdtempSync(path.join(os.tmpdir(), 'wlb-kernel-'));
  #child;
  #server;
  #texts = { stdout: '', stderr: '' };
  #status = null;
  #come;
  #changed = new Set();

  /**
   * Starts a kernel. `script` is the module of a tab's process. Each of `opens` is {url, top, data, pause}: `data` goes to the tab's
   * process, and then the kernel pauses for `pause` milliseconds. An id is a place in this list. Calls `come(tab, message)` with the
   * messages of tabs.
   */
  constructor(script, opens, come, { lanes = 2, shards = 2, limit = 65536 } = {}) {
    this.#come = come;
    const stage = this.#stage, wrapper = this.#file('wlb');
    fs.writeFileSync(wrapper, [
      '#!/bin/sh',
      'case $1 in',
      `tab) exec ${quoted(process.execPath)} ${quoted(fileURLToPath(script))} "$@" ;;`,
      `broker) echo $$ >> ${quoted(this.#file('brokers'))} ;;`,
      'esac',
      `exec ${quoted(program)} "$@"`, '',
    ].join('\n'), { mode: 0o700 });
    const lines = opens.flatMap(({ url, top, data, pause }, id) => {
      const file = this.#file(`tab${id}`);
      fs.writeFileSync(file, JSON.stringify({ id, control: this.#file('control'), data }));
      const open = top === undefined ? `open ${url} ${file}` : `open2 ${top} ${url} ${file}`;
      return pause ? [open, `pause ${pause}`] : [open];
    });
    fs.writeFileSync(this.#file('script'), ['start', ...lines, 'join', ''].join('\n'));
    this.#server = net.createServer(socket => this.#serve(socket)).listen(this.#file('control'));
    const options = ['--dir', stage, '--lanes', `${lanes}`, '--shards', `${shards}`, '--limit', `${limit}`];
    this.#child = spawn(program, ['kernel', ...options, this.#file('script')], { argv0: wrapper, stdio: ['ignore', 'pipe', 'pipe'] });
    for (const name of ['stdout', 'stderr']) this.#child[name].setEncoding('utf8').on('data', text => { this.#texts[name] += text; });
    const stop = () => this.#child.kill('SIGKILL');
    process.on('exit', stop);
    this.ended = once(this.#child, 'close').then(([status, signal]) => {
      this.#status = signal ?? status;
      process.off('exit', stop);
    });
  }

  #file(name) { return path.join(this.#stage, name); }

  #serve(socket) {
    let tab = null;
    socket.on('error', () => {});
    receive(socket, message => {
      if (message.op === 'ready') {
        tab = { ...message, socket, isKilled: false };
        this.tabs.set(tab.id, tab);
        for (const check of this.#changed) check();
      }
      this.#come(tab, message);
    });
  }

  /** Waits until `count` tabs have connected. Fails if the kernel ends first. */
  async ready(count) {
    const all = new Promise(resolve => {
      const check = () => { if (this.tabs.size >= count) resolve(); };
      this.#changed.add(check);
      check();
    });
    await Promise.race([all, this.ended.then(() => { throw new Error(`the kernel has ended early: ${this.#texts.stderr}`); })]);
  }

  send(tab, message) { send(tab.socket, message); }

  /** Kills the process of a tab. */
  kill(tab) {
    if (tab.isKilled || !isOf(tab.process, this.#stage)) return;
    tab.isKilled = true;
    process.kill(tab.process, 'SIGKILL');
  }

  /** Kills the broker. Returns whether there was one. */
  killBroker() {
    const file = this.#file('brokers');
    if (!fs.existsSync(file)) return false;
    const broker = Number(fs.readFileSync(file, 'utf8').trim().split('\n').at(-1));
    if (!isOf(broker, this.#stage)) return false;
    try {
      process.kill(broker, 'SIGKILL');
      return true;
    } catch {
      return false;
    }
  }

  /** Returns whether the kernel still runs after `ms` milliseconds without a new tab. */
  async #isLate(ms) {
    for (let came = -1; came < this.tabs.size;) {
      came = this.tabs.size;
      if (await within(this.ended, ms) !== LATE) return false;
    }
    return true;
  }

  /** Ends all tabs, waits for the kernel's end, and returns faults. */
  async end() {
    const faults = [];
    for (const tab of this.tabs.values()) this.send(tab, { op: 'exit' });
    if (await this.#isLate(10000)) {
      faults.push('the kernel does not end');
      for (const tab of this.tabs.values()) this.kill(tab);
      if (await within(this.ended, 3000) === LATE) this.#child.kill('SIGKILL');
      await this.ended;
    }
    this.#server.close();
    faults.push(...this.#check());
    fs.rmSync(this.#stage, { recursive: true, force: true });
    return faults;
  }

  #check() {
    const faults = [], lines = this.#texts.stdout.split('\n').filter(line => line);
    if (this.#status !== 0) faults.push(`the status of the kernel is ${this.#status}`);
    if (this.#texts.stderr) faults.push(`on standard error: ${this.#texts.stderr.slice(0, 1000)}`);
    for (const line of lines) if (!PRINTED.test(line)) faults.push(`the kernel prints: ${line}`);
    for (const tab of this.tabs.values()) {
      const wanted = `ended ${tab.number} ${tab.isKilled ? KILLED : 0}`, found = lines.find(line => line.startsWith(`ended ${tab.number} `));
      if (found !== wanted) faults.push(`the kernel prints \`${found}\`, not \`${wanted}\``);
      if (isOf(tab.process, this.#stage)) faults.push(`the process of tab ${tab.number} is left`);
    }
    for (const name of fs.readdirSync(this.#stage)) if (/^(tab|broker)\d+\.sock$/.test(name)) faults.push(`${name} is left`);
    return faults;
  }
}
