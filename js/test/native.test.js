// The modules against the native libraries: hub and clients play random operations, and each status, frame and event is compared.
// `make lib` builds the libraries in the folder `build`. WLB_LIBRARIES names another folder, or none if it is empty.

import assert from 'node:assert/strict';
import { execFileSync, spawnSync } from 'node:child_process';
import fs from 'node:fs';
import os from 'node:os';
import path from 'node:path';
import test from 'node:test';
import { fileURLToPath } from 'node:url';
import { play } from '../lab/play.js';

const top = fileURLToPath(new URL('../..', import.meta.url));
const libraries = process.env.WLB_LIBRARIES ?? path.join(top, 'build');
const archives = ['libwlb_hub.a', 'libwlb_client.a'].map(name => path.join(libraries, name));

/** Returns the reason why the libraries cannot be linked, or false. */
function noLibraries() {
  if (!libraries || !archives.every(file => fs.existsSync(file))) return 'there are no C libraries: run `make lib`, or set WLB_LIBRARIES';
  return spawnSync('cc', ['--version']).error ? 'there is no C compiler `cc`' : false;
}

/** Random operations that stay the same for a seed. */
function operations(seed, count) {
  let state = seed;
  const random = below => {
    state = (Math.imul(state, 1664525) + 1013904223) >>> 0;
    return Math.floor(state / 2 ** 32 * below);
  };
  const pick = list => list[random(list.length)];
  const hex = text => Buffer.from(text).toString('hex') || '-';
  const urls = ['https://a.test/', 'https://b.test/x', 'https://ä.test/', 'data:,x', 'no URL'].map(hex);
  const names = ['a', 'a', 'b', '', '-', '\u{1F512}', 'x'.repeat(255), 'x'.repeat(256)].map(hex);
  // The second is no UTF-8.
  const anyName = () => (random(40) ? pick(names) : 'ff61');
  const tabs = [1, 2, 3, 4, 5, 6], list = ['hub', ...tabs.map(tab => `client ${tab}`), `open 1 ${urls[0]}`, `open 2 ${urls[0]}`];
  list.push(`pair 3 ${urls[0]} ${urls[0]}`, `pair 4 ${urls[1]} ${urls[0]}`, 'restart');
  for (let n = 0; n < count; n++) {
    const tab = pick(tabs), number = random(1 + Math.min(n, 12)) + (random(2) ? Math.floor(n / 40) : 0), mode = pick(['shared', 'exclusive']);
    list.push(pick([
      `request ${tab} ${anyName()} ${mode}`, `request ${tab} ${anyName()} ${mode}`, `probe ${tab} ${anyName()} ${mode}`, `query ${tab}`,
      `release ${tab} ${number}`, `release ${tab} ${number}`, `abort ${tab} ${number}`, `channel ${tab} ${anyName()}`,
      `post ${tab} ${random(8)} ${hex('x'.repeat(pick([0, 1, 5, 5, 16384, 16385])))}`, `read ${tab} ${random(8)}`, `shut ${tab} ${random(40)}`,
      `up ${tab} ${1 + random(70)}`, `up ${tab} 65540`, `up ${tab} 65540`, `down ${1 + random(70)}`, 'down 65540',
      random(10) ? `down ${1 + random(9)}` : `resend ${tab}`,
      random(12) ? 'down 65540' : pick(['restart', `close ${tab}`, `open ${tab} ${pick(urls)}`, `pair ${tab} ${pick(urls)} ${pick(urls)}`]),
      random(60) ? `up ${tab} 7` : `bytes ${tab} ${pick(['000000', '00000002', 'ffffffff', '000000060110000000010000'])}`,
    ]));
  }
  return list;
}

test('modules and native libraries give the same bytes', { skip: noLibraries() }, async () => {
  const folder = fs.mkdtempSync(path.join(os.tmpdir(), 'wlb-native-'));
  try {
    const program = path.join(folder, 'native');
    const source = fileURLToPath(new URL('../lab/native.c', import.meta.url));
    execFileSync('cc', ['-O1', '-Wall', '-Wextra', '-Werror', `-I${path.join(top, 'include')}`, source, ...archives, '-o', program]);
    for (let seed = 1; seed <= 4; seed++) {
      const list = operations(seed, 1500);
      const native = execFileSync(program, { input: `${list.join('\n')}\n`, maxBuffer: 2 ** 30 }).toString().split('\n');
      const module = (await play(list)).split('\n');
      native.forEach((line, at) => assert.equal(module[at], line, `seed ${seed}, operation ${at}: ${list[at]}`));
      assert.equal(module.length, native.length);
      // The operations have granted, refused, answered and posted something.
      const all = native.join('\n');
      for (const kind of [1, 2, 3, 4, 5, 7, 8]) assert.match(all, new RegExp(`\\[${kind} `), `seed ${seed} has no event ${kind}`);
    }
  } finally {
    fs.rmSync(folder, { recursive: true });
  }
});
