// A process of speed.js, as a tab of `wlb kernel`.

import { enter } from './kernel_tab.js';
import { measure } from './speed_loop.js';

const { tab, tell } = await enter(async ({ name, rounds }) => tell({ op: 'measured', result: await measure(tab.locks, name, rounds) }));
