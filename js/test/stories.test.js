// Stories of the playground, to their ends.

import assert from 'node:assert/strict';
import test from 'node:test';
import { clientModule, hubModule } from '../lab/lab.js';
import { STORIES } from '../playground/stories.js';
import { World } from '../playground/world.js';

// Who holds the lock "db" at the end of each step.
const HOLDERS = {
  handover: [[], [1], [1], [2]],
  crash: [[], [1], [2], [3]],
  restart: [[], [1], [1], [1, 3], [1, 3], [2, 3]],
  late: [[], [1], [], [], [], [1]],
  twice: [[], [1], [2]],
};

for (const [name, { steps }] of Object.entries(STORIES)) {
  test(`the story ${name}`, async () => {
    const world = await World.create({ hub: hubModule, client: clientModule }), holders = [];
    for (const [, run, isHeld] of steps) {
      await run(world);
      while (!isHeld && world.deliverNext());
      holders.push([...world.tabs].filter(([, { locks }]) => [...locks.values()].some(lock => lock.isHeld)).map(([tab]) => tab));
    }
    assert.deepEqual(holders, HOLDERS[name]);
  });
}
