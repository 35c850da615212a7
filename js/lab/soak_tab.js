// A process of the stress, as a tab of `wlb kernel`. It writes each entry and each exit of a section into a file.

import fs from 'node:fs';
import path from 'node:path';
import { enter } from './kernel_tab.js';
import { dice, forgetful, hasty, longest, pause, play } from './soak_lines.js';

let isOver = false;
const come = () => { isOver = true; };
const { tab, data, tell } = await enter(come, (link, { wrong }) => (wrong === 'forgetful' ? forgetful(link) : link));
const { folder, slot, seed, counts, wrong } = data;
const random = dice(seed), log = fs.openSync(path.join(folder, `log${slot}`), 'a');
/** Logs a line with the time. All processes share the system's monotonic clock. */
const note = (...words) => fs.writeSync(log, `${words.join(' ')} ${process.hrtime.bigint()}\n`);

async function section(line, name, mode) {
  note('in', line, name, mode);
  if (mode === 'exclusive' && counts) {
    const counter = path.join(folder, `counter${name}`), count = Number(fs.readFileSync(counter, 'utf8'));
    await pause(random(longest(wrong, 3)));
    fs.writeFileSync(counter, `${count + 1}`);
  } else {
    await pause(random(longest(wrong, counts ? 3 : 40)));
  }
  note('out', line, name, mode);
}

try {
  tell({ op: 'done', sums: await play(wrong === 'hasty' ? hasty(tab.locks) : tab.locks, tab.id, random, section, () => isOver) });
} catch (error) {
  tell({ op: 'fault', text: error.stack ?? String(error) });
}
