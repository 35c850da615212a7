// Short runs of the stress: see lab/soak.js.

import assert from 'node:assert/strict';
import { execFile } from 'node:child_process';
import test from 'node:test';
import { fileURLToPath } from 'node:url';
import { promisify } from 'node:util';
import { noProgram } from '../lab/kernel.js';
import { faultOf } from '../lab/soak_lines.js';

async function soak(...words) {
  const script = fileURLToPath(new URL('../lab/soak.js', import.meta.url));
  const { stdout } = await promisify(execFile)(process.execPath, [script, '--tabs', '4', ...words]);
  return stdout;
}

test('threads, kills and restarts at random', async () => {
  assert.match(await soak('--seconds', '4'), /^[1-9]\d* sections, .* [1-9]\d* restarts, [1-9]\d* killed tabs$/m);
});

test('processes, kills and restarts at random', { skip: noProgram }, async () => {
  assert.match(await soak('--processes', '--seconds', '4'), /^[1-9]\d* sections, .* [1-9]\d* restarts, [1-9]\d* killed tabs$/m);
});

test('wrong clients are noticed', async () => {
  assert.match(await soak('--wrong', '--seconds', '2'), /^hasty clients: [1-9]\d* times .*\nforgetful clients: [1-9]\d* times /);
});

// A row: the held locks, the requests in their order, the requests of tab 1 that still wait, and whether the snapshot is faulty. `1xa` is
// an exclusive lock or request `a` of tab 1, and `2sb` a shared one `b` of tab 2.
const SNAPSHOTS = [
  ['', '', '', false],
  ['1xa', '2xa 1sa', '1sa', false],
  ['1sa 2sa', '3xa 1sa', '1sa', false],
  ['1xa', '2xb', '', true],
  ['1sa', '2sa', '', true],
  ['1sa', '2sb 3xb', '', true],
  ['2xa', '3xa', '1xa', true],
  ['2xa', '1xa', '1sa', true],
  ['2xa', '1xa', '1xa 1xa', true],
  ['1xa 2sa', '', '', true],
];

test('snapshots in which a request waits for nothing are noticed', () => {
  const infos = text => text.split(' ').filter(Boolean)
    .map(([clientId, mode, name]) => ({ clientId, mode: mode === 's' ? 'shared' : 'exclusive', name }));
  for (const [held, pending, own, isFaulty] of SNAPSHOTS) {
    const fault = faultOf({ held: infos(held), pending: infos(pending) }, '1', infos(own));
    assert.equal(fault !== null, isFaulty, `${held}; ${pending}; ${own}: ${fault}`);
  }
});
