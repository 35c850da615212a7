// The test vectors of the protocol, played by the client's module behind a command, as `tools/check_vectors.py` plays any client.

import assert from 'node:assert/strict';
import { spawnSync } from 'node:child_process';
import test from 'node:test';
import { fileURLToPath } from 'node:url';
import '../lab/lab.js';

const top = fileURLToPath(new URL('../..', import.meta.url));

const skip = spawnSync('python3', ['--version']).error ? 'there is no command `python3`' : false;

test('the client speaks as the test vectors of the protocol say', { skip }, () => {
  const { stdout, stderr, status } = spawnSync('python3', ['tools/check_vectors.py', '--client', 'node js/lab/vectors.js'], { cwd: top });
  assert.deepEqual([`${stdout}`, `${stderr}`, status], ['', '', 0]);
});
