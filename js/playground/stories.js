// Stories: each step has a sentence, and what happens in the world. A step is followed by the delivery of all messages, unless it ends
// with `held`.

const A = 'https://a.test/', B = 'https://b.test/';
const held = true;

export const STORIES = {
  handover: {
    title: 'Handover',
    steps: [
      ['Two tabs of a.test are opened.', async world => { await world.open(A); await world.open(A); }],
      ['Tab 1 asks for the lock "db", and gets it.', world => world.request(1, 'db')],
      ['Tab 2 asks for it, too, and has to wait.', world => world.request(2, 'db')],
      ['Tab 1 releases the lock. Tab 2 gets it.', world => world.end(1, world.commandOf(1, 'db'))],
    ],
  },
  crash: {
    title: 'Crash of the holder',
    steps: [
      ['Three tabs of a.test are opened.', async world => { for (let n = 0; n < 3; n++) await world.open(A); }],
      ['Tab 1 gets the lock "db". Tabs 2 and 3 wait.', world => { for (const tab of [1, 2, 3]) world.request(tab, 'db'); }],
      ['Tab 1 crashes. The broker is told, and tab 2 gets the lock.', world => world.kill(1)],
      ['Tab 2 crashes, too. Tab 3 gets the lock.', world => world.kill(2)],
    ],
  },
  restart: {
    title: 'Restart while a lock is held',
    steps: [
      ['Two tabs of a.test are opened, and one of b.test.', async world => { await world.open(A); await world.open(A); await world.open(B); }],
      ['Tab 1 gets the lock "db", and tab 2 waits for it.', world => { world.request(1, 'db'); world.request(2, 'db'); }],
      ['The broker crashes, and the next one knows nothing. It greets the tabs.', world => world.restart(), held],
      ['Tab 3 reports, so b.test works again. Its lock "db" is another one.', world => {
        const to = (from, at) => world.wire.find(message => message.from === from && message.to === at);
        world.deliver(to(0, 3).id);
        world.deliver(to(3, 0).id);
        world.request(3, 'db');
        world.deliver(to(3, 0).id);
        world.deliver(to(0, 3).id);
      }, held],
      ['The tabs of a.test report what they hold and what they wait for. Nothing was lost.', () => {}],
      ['Tab 1 releases the lock. Tab 2 gets it.', world => world.end(1, world.commandOf(1, 'db'))],
    ],
  },
  late: {
    title: 'A grant that comes too late',
    steps: [
      ['Two tabs of a.test are opened.', async world => { await world.open(A); await world.open(A); }],
      ['Tab 1 gets the lock "db", and tab 2 has to wait.', world => { world.request(1, 'db'); world.request(2, 'db'); }],
      ['Tab 1 releases the lock. The grant to tab 2 is held back.', world => {
        world.end(1, world.commandOf(1, 'db'));
        world.deliver(world.wire[0].id);
      }, held],
      ['Tab 2 aborts its request before the grant comes.', world => world.end(2, world.commandOf(2, 'db')), held],
      ['The grant comes, and changes nothing. The broker takes the abort, and the lock is free.', () => {}],
      ['Tab 1 asks again, and gets the lock.', world => world.request(1, 'db')],
    ],
  },
  twice: {
    title: 'Messages that come twice',
    steps: [
      ['Two tabs of a.test are opened.', async world => { await world.open(A); await world.open(A); }],
      ['Tab 1 asks for the lock "db". The request comes twice: the broker answers twice, and grants once.', world => {
        world.request(1, 'db');
        world.deliver(world.wire[0].id, true);
      }],
      ['Tab 1 releases the lock, and that comes twice, too. Tab 2 asks in between, and its lock stays its own.', world => {
        world.end(1, world.commandOf(1, 'db'));
        const release = world.wire[0].id;
        world.deliver(release, true);
        world.request(2, 'db');
        world.deliver(world.wire.at(-1).id);
        world.deliver(release);
      }],
    ],
  },
};
