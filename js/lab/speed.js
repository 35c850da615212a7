// Measures locks through the package, beside the same loop with the locks of browsers.
//
// usage: node js/lab/speed.js [--rounds N] [--runs N]
//
// One tab requests a lock that nobody else wants, again and again (`alone`). Then two tabs do so with one lock (`both`). In each run
// the loop is played over each place, one after another:
//
//   one thread   host and tabs in one event loop, over MessagePorts
//   threads      host in one thread, each tab in another one, over MessagePorts
//   processes    `wlb kernel` with its broker; each tab is a process, over a Unix socket. It is left out if there is no program `wlb`
//   chromium, firefox   `navigator.locks` of a page without a window, and of a frame in it, if the browser is installed
//
// Prints the median of microseconds until a lock is granted, the locks a second of all tabs together, and their ratios to those of each
// browser: the medians of all runs. A ratio of rates above 1, and one of times below 1, is better than the browser.

import { spawn, spawnSync } from 'node:child_process';
import fs from 'node:fs';
import http from 'node:http';
import os from 'node:os';
import path from 'node:path';
import { fileURLToPath } from 'node:url';
import { MessageChannel, Worker } from 'node:worker_threads';
import { Host, connect, linkPair, portLink } from '../src/index.js';
import { commandLine } from './command_line.js';
import { Kernel, noProgram } from './kernel.js';
import { measure } from './speed_loop.js';

const { values } = commandLine(import.meta.url, { rounds: { type: 'string', default: '2000' }, runs: { type: 'string', default: '5' } });
const { clientModule, hubModule } = await import('./lab.js');
const rounds = Number(values.rounds), runs = Number(values.runs);
const ORIGIN = 'https://a.test/', PATIENCE = 120000;

/** Measures one tab, and then both. `ask(tab, name)` has a tab play the loop. */
async function parts(tabs, ask) {
  return { alone: await ask(tabs[0], 'alone'), both: await Promise.all(tabs.map(tab => ask(tab, 'both'))) };
}

async function oneThread() {
  const host = await Host.create(hubModule), tabs = [];
  for (let n = 0; n < 2; n++) {
    const [mine, theirs] = linkPair();
    host.accept(theirs, { url: ORIGIN });
    tabs.push(await connect(mine, clientModule));
  }
  const found = await parts(tabs, (tab, name) => measure(tab.locks, name, rounds));
  for (const tab of tabs) tab.close();
  return found;
}

async function threads() {
  const host = await Host.create(hubModule);
  const workers = [1, 2].map(() => {
    const { port1, port2 } = new MessageChannel();
    host.accept(portLink(port1), { url: ORIGIN });
    const workerData = { port: port2, client: clientModule };
    return new Worker(new URL('speed_worker.js', import.meta.url), { workerData, transferList: [port2] });
  });
  const found = await parts(workers, (worker, name) => new Promise((resolve, reject) => {
    worker.once('message', resolve);
    worker.once('error', reject);
    worker.postMessage({ name, rounds });
  }));
  await Promise.all(workers.map(worker => worker.terminate()));
  return found;
}

async function processes() {
  const waiting = new Map(); // tab -> function that is given its result
  const kernel = new Kernel(new URL('speed_tab.js', import.meta.url), [{ url: ORIGIN }, { url: ORIGIN }], (tab, message) => {
    if (message.op === 'measured') waiting.get(tab)(message.result);
  });
  await kernel.ready(2);
  const found = await parts([...kernel.tabs.values()], (tab, name) => new Promise(resolve => {
    waiting.set(tab, resolve);
    kernel.send(tab, { name, rounds });
  }));
  const faults = await kernel.end();
  if (faults.length) throw new Error(faults.join('; '));
  return found;
}

/** Serves this folder. The headers give pages a clock that is as fine as the browser has one. */
function serve(result) {
  return http.createServer((request, response) => {
    if (request.method === 'POST') {
      let text = '';
      request.on('data', piece => { text += piece; });
      request.on('end', () => {
        response.end();
        result(JSON.parse(text));
      });
      return;
    }
    const file = path.join(fileURLToPath(new URL('.', import.meta.url)), path.basename(new URL(request.url, 'http://x').pathname));
    if (!fs.existsSync(file)) {
      response.writeHead(404).end();
      return;
    }
    response.writeHead(200, {
      'content-type': file.endsWith('.html') ? 'text/html' : 'text/javascript',
      'cross-origin-opener-policy': 'same-origin',
      'cross-origin-embedder-policy': 'require-corp',
    });
    fs.createReadStream(file).pipe(response);
  });
}

async function browser(program, words) {
  const profile = fs.mkdtempSync(path.join(os.tmpdir(), 'wlb-browser-'));
  let give;
  const result = new Promise(resolve => { give = resolve; }), server = serve(give);
  await new Promise(resolve => server.listen(0, '127.0.0.1', resolve));
  const url = `http://127.0.0.1:${server.address().port}/speed.html?rounds=${rounds}`;
  const child = spawn(program, [...words(profile), url], { stdio: 'ignore', detached: true });
  const found = await Promise.race([result, new Promise(resolve => setTimeout(resolve, PATIENCE, { error: 'no result in time' }).unref())]);
  const ended = new Promise(resolve => child.once('close', resolve));
  // The browser has processes of its own, all in one group.
  process.kill(-child.pid, 'SIGKILL');
  await ended;
  server.closeAllConnections();
  server.close();
  fs.rmSync(profile, { recursive: true, force: true, maxRetries: 5 });
  if (found.error) throw new Error(`${program}: ${found.error}`);
  return found;
}

const BROWSERS = {
  chromium: [
    ['chromium', 'chromium-browser', 'google-chrome'],
    profile => ['--headless=new', '--no-sandbox', '--disable-gpu', '--no-first-run', `--user-data-dir=${profile}`],
  ],
  firefox: [['firefox', 'firefox-esr'], profile => ['--headless', '--no-remote', '--profile', profile]],
};

function installed(names) {
  return names.find(name => spawnSync(name, ['--version'], { stdio: 'ignore' }).status === 0);
}

const places = new Map([['one thread', oneThread], ['threads', threads]]);
if (!noProgram) places.set('processes', processes);
else console.log('locks: there is no program `wlb`: processes are left out');
const browsers = [];
for (const [name, [programs, words]] of Object.entries(BROWSERS)) {
  const program = installed(programs);
  if (program) {
    places.set(name, () => browser(program, words));
    browsers.push(name);
  } else {
    console.log(`locks: there is no ${name}: it is left out`);
  }
}

const found = new Map([...places.keys()].map(name => [name, []]));
for (let run = 0; run < runs; run++) {
  for (const [name, play] of places) {
    const { alone, both } = await play();
    found.get(name).push({ wait: alone.median, alone: alone.rate, both: both[0].rate + both[1].rate });
  }
}

const median = list => [...list].sort((one, other) => one - other)[list.length >> 1];
for (const [name, list] of found) {
  const number = (key, width) => median(list.map(each => each[key])).toFixed(0).padStart(width);
  const rates = `alone ${number('alone', 6)}  both ${number('both', 6)} locks a second`;
  console.log(`locks: ${name.padEnd(10)} granted in ${number('wait', 4)} us  ${rates}`);
  for (const other of browsers.filter(() => !browsers.includes(name))) {
    const beside = found.get(other), ratio = key => median(list.map((each, run) => each[key] / beside[run][key])).toFixed(2);
    console.log(`locks:     ratios to ${other}: time ${ratio('wait')}, alone ${ratio('alone')}, both ${ratio('both')}`);
  }
}
process.exit(0);
