// The programs of this package's README.md, and the one of the README.md at the top, as these say that they are run.

import assert from 'node:assert/strict';
import { spawnSync } from 'node:child_process';
import fs from 'node:fs';
import os from 'node:os';
import path from 'node:path';
import test from 'node:test';
import { fileURLToPath } from 'node:url';
import { noProgram, program } from '../lab/kernel.js';
import { modules } from '../lab/lab.js';

const here = fileURLToPath(new URL('..', import.meta.url));
const readme = fs.readFileSync(path.join(here, 'README.md'), 'utf8');

/** The files in a section of the README: each block begins with a comment that has its name. */
function filesOf(section) {
  const text = readme.split(/^## /m).find(part => part.startsWith(section));
  return [...text.matchAll(/^```\w+\n((?:\/\/|#|#!\/bin\/sh\n#) (\S+)\n[\s\S]*?)^```$/gm)].map(([, content, name]) => ({ name, content }));
}

const MODULES = ['wlb_hub32.wasm', 'wlb_client32.wasm'];

/** A folder with the package in `place`. */
function installed(t, place) {
  const folder = fs.mkdtempSync(path.join(os.tmpdir(), 'wlb-readme-')), home = path.join(folder, place);
  t.after(() => fs.rmSync(folder, { recursive: true }));
  fs.mkdirSync(path.join(home, 'dist'), { recursive: true });
  for (const name of ['src', 'package.json']) fs.cpSync(path.join(here, name), path.join(home, name), { recursive: true });
  for (const name of MODULES) fs.copyFileSync(path.join(modules, name), path.join(home, 'dist', name));
  return folder;
}

/** A folder with the files, in which the package is installed. */
function folderOf(t, section) {
  const folder = installed(t, 'node_modules/wlb');
  for (const { name, content } of filesOf(section)) fs.writeFileSync(path.join(folder, name), content, { mode: 0o755 });
  return folder;
}

function run(folder, command) {
  const ran = spawnSync('bash', ['-c', command], {
    cwd: folder, encoding: 'utf8', timeout: 30000, env: { ...process.env, PATH: program ? `${path.dirname(program)}:${process.env.PATH}` : process.env.PATH },
  });
  assert.deepEqual([ran.status, ran.stderr], [0, '']);
  return ran.stdout.split('\n').filter(Boolean);
}

/** Each tab begins three times, and ends before another one begins. */
function checkTurns(lines) {
  assert.equal(lines.length, 12);
  for (let at = 0; at < 12; at += 2) assert.equal(lines[at + 1], lines[at].replace('begins', 'ends'));
  for (const name of ['one', 'two']) assert.equal(lines.filter(line => line === `${name} begins`).length, 3);
}

test('the example at the top of the repository', t => {
  const folder = installed(t, 'node_modules/wlb'), text = fs.readFileSync(path.join(here, '../README.md'), 'utf8');
  fs.writeFileSync(path.join(folder, 'lock.mjs'), /^```js\n([\s\S]*?)^```$/m.exec(text)[1]);
  assert.deepEqual(run(folder, 'node lock.mjs').sort(), ['one holds the lock db', 'two holds the lock db']);
});

test('two threads', t => checkTurns(run(folderOf(t, 'Two threads'), 'node main.mjs')));

test('two processes', t => {
  const host = 'node host.mjs & host=$!; until [ -S locks.sock ]; do sleep 0.05; done';
  checkTurns(run(folderOf(t, 'Two processes'), `${host}; node tab.mjs one & one=$!; node tab.mjs two; wait $one; kill $host`));
});

test('a second host ends, and a host that was killed has a successor', t => {
  const folder = folderOf(t, 'Two processes'), tabs = [1, 2].map(number => `until node tab.mjs ${number} 2>errors; do sleep 0.05; done`);
  const lines = run(folder, [
    'node host.mjs & host=$!', tabs[0], 'node host.mjs 2>refused && exit 1', 'grep -o EADDRINUSE refused | head -1', tabs[0],
    'kill -9 $host; wait $host 2>errors', 'test -S locks.sock || exit 1', 'node host.mjs & host=$!', tabs[1], 'kill $host',
  ].join('\n'));
  const turns = number => Array.from({ length: 3 }, () => [`${number} begins`, `${number} ends`]).flat();
  assert.deepEqual(lines, [...turns(1), 'EADDRINUSE', ...turns(1), ...turns(2)]);
});

test('two processes under wlb kernel', { skip: noProgram }, t => {
  const folder = folderOf(t, 'Two processes'), [, commands] = /^((?: {4}.*\n)+)(?=\nAfter `tab\.close)/m.exec(readme);
  const lines = run(folder, commands), isKernel = line => /^(up|opened|ended) /.test(line);
  const opened = [1, 2].map(tab => `opened ${tab} https://app.example`);
  assert.deepEqual(lines.filter(isKernel).sort(), ['ended 1 0', 'ended 2 0', ...opened, 'up 1']);
  checkTurns(lines.filter(line => !isKernel(line)));
});
