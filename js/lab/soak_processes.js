// The stress over processes: Node processes as the tabs of `wlb kernel`, while brokers are killed. Some tabs count: an exclusive section
// adds to the number in a file that only its lock protects. Others hold and wait, and are killed. All log when they enter and leave a
// section.

import fs from 'node:fs';
import os from 'node:os';
import path from 'node:path';
import { Kernel, sleep } from './kernel.js';
import { NAMES, dice } from './soak_lines.js';

// Longest life of a victim, and longest pause of a script, in milliseconds.
const LIFE = 400, PAUSE = 10000;

export async function soakProcesses({ seconds, tabs, seed, restart, kill, patience, wrong }) {
  const folder = fs.mkdtempSync(path.join(os.tmpdir(), 'wlb-soak-')), random = dice(seed);
  for (let name = 0; name < NAMES; name++) fs.writeFileSync(path.join(folder, `counter${name}`), '0');
  const victims = Math.floor(1000 * seconds / kill), opens = Array.from({ length: tabs + victims }, (_, slot) => ({
    url: 'https://a.test/',
    data: { folder, slot, seed: `${seed} ${slot}`, counts: slot < tabs, wrong },
    pause: slot < tabs ? 0 : Math.min(kill, PAUSE),
  }));
  const sums = { sections: 0, probes: 0, aborts: 0, queries: 0 }, faults = [], killed = new Map(); // slot -> time
  const left = new Set(Array.from({ length: tabs }, (_, slot) => slot));
  let restarts = 0, isOver = false, finish;
  const finished = new Promise(resolve => { finish = resolve; });

  const end = tab => {
    if (isOver) return;
    const now = process.hrtime.bigint();
    kernel.kill(tab);
    if (tab.isKilled) killed.set(tab.id, now);
  };
  const kernel = new Kernel(new URL('soak_tab.js', import.meta.url), opens, (tab, message) => {
    const isVictim = tab.id >= tabs;
    switch (message.op) {
      case 'ready':
        if (isOver) kernel.send(tab, { op: 'exit' });
        else if (isVictim) setTimeout(() => end(tab), random(LIFE));
        break;
      case 'done':
        left.delete(tab.id);
        for (const key of Object.keys(sums)) sums[key] += message.sums[key];
        if (!left.size) finish();
        break;
      case 'fault':
        faults.push(`tab ${tab.number}: ${message.text}`);
        break;
      default: faults.push(`tab ${tab.number}: its link has ended`);
    }
  });
  await kernel.ready(tabs);
  (async () => {
    while (!isOver) {
      await sleep(random(2 * restart));
      if (!isOver && kernel.killBroker()) restarts++;
    }
  })();
  await sleep(1000 * seconds);
  isOver = true;
  for (const tab of kernel.tabs.values()) kernel.send(tab, { op: tab.id < tabs ? 'stop' : 'exit' });
  await Promise.race([finished, sleep(patience)]);
  for (const slot of left) faults.push(`tab ${slot + 1} waits for ever`);
  faults.push(...await kernel.end(), ...check(folder, tabs, killed));
  fs.rmSync(folder, { recursive: true });
  return { faults, sums, restarts, kills: killed.size };
}

/** Sections of a tab: {name, mode, from, to}. One that a kill has ended lasts until then. */
function sectionsOf(file, killedAt) {
  const sections = [], open = new Map(); // line -> section
  for (const row of fs.readFileSync(file, 'utf8').split('\n').filter(Boolean)) {
    const [what, line, name, mode, time] = row.split(' ');
    if (what === 'in') open.set(line, { name: Number(name), mode, from: BigInt(time), to: killedAt ?? BigInt(time) });
    else {
      sections.push({ ...open.get(line), to: BigInt(time) });
      open.delete(line);
    }
  }
  return [...sections, ...open.values()];
}

function check(folder, tabs, killed) {
  const faults = [], sections = [];
  for (const file of fs.readdirSync(folder).filter(file => file.startsWith('log'))) {
    const slot = Number(file.slice(3));
    for (const section of sectionsOf(path.join(folder, file), killed.get(slot))) sections.push({ ...section, slot });
  }
  sections.sort((one, other) => (one.from < other.from ? -1 : 1));
  for (let name = 0; name < NAMES; name++) {
    const own = sections.filter(section => section.name === name);
    const count = Number(fs.readFileSync(path.join(folder, `counter${name}`), 'utf8'));
    const added = own.filter(({ slot, mode }) => slot < tabs && mode === 'exclusive').length;
    if (count !== added) faults.push(`counter ${name} is ${count} after ${added} sections`);
    const meetings = meetingsOf(own);
    if (meetings) faults.push(`${meetings} times two holders of ${name} have met`);
  }
  return faults;
}

/** Counts sections that begin in another one that excludes them. They are sorted by their beginning. */
function meetingsOf(sections) {
  const last = { shared: 0n, exclusive: 0n };
  let meetings = 0;
  for (const { mode, from, to } of sections) {
    if (last.exclusive > from || (mode === 'exclusive' && last.shared > from)) meetings++;
    if (to > last[mode]) last[mode] = to;
  }
  return meetings;
}
