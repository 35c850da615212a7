// A process of the suite: a tab that waits for its role from the runner.

import { enter } from '../lab/kernel_tab.js';
import { become } from './environment.js';

const context = { come: null };
Object.assign(context, await enter(message => {
  if (message.op === 'run') become(context, message.spec);
  else context.come(message);
}));
