// Runs the web-locks and broadcastchannel folders of the web-platform-tests over this package. Unless plan.js says otherwise, each page,
// frame and worker of a test is a tab of its own: a thread with a MessagePort to a host in the main thread, or with --processes a
// process that `wlb kernel` has started.
//
// usage: node js/conformance/run.js WPT [--processes] [--only TEXT] [--pairs] [--restart MS] [--repeat N] [--seed N] [--timeout MS]
//        [--quiet]
//
//   WPT        a checkout of the web-platform-tests, or the folder testing/web-platform/tests of a Firefox source
//   --pairs    also run each test with tabs that may have 1,024 locks, requests and queries
//   --restart  restart the broker at random, every MS milliseconds on average; with --processes kill its process
//
// It prints PASS, FAIL, KNOWN or SKIP for each subtest, and the totals. The status is 1 if a subtest has failed that is not listed as known.

import fs from 'node:fs';
import path from 'node:path';
import { commandLine } from '../lab/command_line.js';
import { needProgram, sleep } from '../lab/kernel.js';
import { FOLDERS, HOSTS, RUN, SKIP } from './plan.js';

const text = { type: 'string' }, flag = { type: 'boolean', default: false };
const { values: options, positionals: [suite] } = commandLine(import.meta.url, {
  processes: flag, only: { ...text, default: '' }, pairs: flag, restart: text, repeat: { ...text, default: '1' },
  seed: { ...text, default: '1' }, timeout: { ...text, default: '20000' }, quiet: flag,
}, true);
if (!suite || !fs.existsSync(path.join(suite, 'resources/testharness.js'))) {
  console.error('conformance: give the folder of the web-platform-tests that has resources/testharness.js: docs/CONFORMANCE.md says where it is');
  process.exit(2);
}
if (options.processes) needProgram();
const Place = options.processes ? (await import('./processes.js')).Processes : (await import('./threads.js')).Threads;

// A linear congruential generator, so that a seed gives the same moments again.
let state = Number(options.seed);
const random = () => {
  state = (Math.imul(state, 1664525) + 1013904223) >>> 0;
  return state / 2 ** 32;
};
const originOf = url => new URL(url).origin;

/** One file of the suite, with a host or a kernel of its own. */
class Run {
  faults = [];
  results = [];
  restarts = 0;
  #test;
  #place;
  #contexts = new Map(); // name -> {post, kill, url, top, parent, name}
  #queues = new Map(); // token -> {items, waiting}, of the suite's dispatcher
  #line = []; // messages between contexts
  #stepping = null; // the frame that takes a step

  constructor(test) {
    this.#test = test;
    this.finished = new Promise(resolve => { this.finish = resolve; });
  }

  async run(arePairs) {
    const { file, skip = [] } = this.#test;
    this.#place = await Place.open(this.#test, arePairs);
    const url = `${HOSTS.own}/${file.replace(/\.js$/, '.html')}`;
    const names = skip.map(([name]) => name);
    this.#start({ ctx: 'page', as: 'page', url, file, timeout: Number(options.timeout), skip: names }, HOSTS.own, null);
    const timer = setTimeout(() => this.finish('no results in time'), Number(options.timeout) + 10000);
    if (options.restart) this.#restart();
    const fault = await this.finished;
    clearTimeout(timer);
    this.isOver = true;
    if (fault) this.faults.push(fault);
    this.faults.push(...await this.#place.close());
    return this;
  }

  async #restart() {
    while (!this.isOver) {
      await sleep(random() * 2 * Number(options.restart));
      if (!this.isOver && this.#place.restart()) this.restarts++;
    }
  }

  /** Starts a context as a tab of its partition. */
  #start(spec, top, parent) {
    const { framesAreLocal = false, framesHaveTabs = false } = this.#test;
    const endsFramesBy = random() < 0.5 ? 'exit' : 'kill';
    const common = { suite: path.resolve(suite), hosts: HOSTS, framesAreLocal, framesHaveTabs, endsFramesBy };
    const context = { url: spec.url, top, parent, name: spec.ctx };
    this.#contexts.set(spec.ctx, context);
    const come = message => this.#come(context, message);
    const fail = why => { if (!this.isOver && !context.isEnding) this.faults.push(`${spec.ctx}: ${why}`); };
    Object.assign(context, this.#place.start({ ...spec, ...common }, top, originOf(spec.url), come, fail));
  }

  #come(context, message) {
    switch (message.op) {
      case 'result': return this.results.push(message);
      case 'results':
        this.harness = message.harness;
        for (const test of message.tests) if (!this.results.some(one => one.name === test.name)) this.results.push(test);
        return this.finish(null);
      case 'spawn': {
        const { as, url, parent = null, topOf } = message;
        const top = as === 'popup' ? originOf(url) : context.top;
        const role = as === 'popup' ? { opener: context.name } : as === 'frame' ? { parent, top: topOf } : { owner: context.name };
        return this.#start({ ...message, ...role }, top, parent);
      }
      case 'kill': return this.#end(this.#contexts.get(message.ctx), message.how);
      case 'loaded': return context.parent && this.#contexts.get(context.parent).post({ op: 'loaded', ctx: context.name });
      case 'msg': return this.#pass(this.#contexts.get(message.to), { ...message, origin: originOf(context.url) });
      case 'stepped': return this.#step(context);
      case 'send':
        this.#queue(message.uuid).items.push(message.data);
        return this.#hand(message.uuid);
      case 'receive':
        this.#queue(message.uuid).waiting.push(context);
        return this.#hand(message.uuid);
      default: throw new Error(`a context says ${message.op}`);
    }
  }

  #end(context, how) {
    context.isEnding = true;
    if (how === 'exit') context.post({ op: 'exit' });
    else context.kill();
    if (this.#stepping === context) this.#step(context);
  }

  /**
   * Hands a message on. Tabs of different processes have no common order. If a test needs the order of its frames, messages wait in one
   * line. A message to a frame holds the line until the broker has taken the frame's commands.
   */
  #pass(to, message) {
    if (!to || to.isEnding) return;
    this.#line.push([to, message]);
    this.#advance();
  }

  #advance() {
    while (!this.#stepping && this.#line.length) {
      const [to, message] = this.#line.shift(), isStep = Boolean(this.#place.inStep && to.parent && !to.isEnding);
      if (isStep) this.#stepping = to;
      to.post({ ...message, isStep });
    }
  }

  #step(context) {
    if (this.#stepping !== context) return;
    this.#stepping = null;
    this.#advance();
  }

  #queue(token) {
    if (!this.#queues.has(token)) this.#queues.set(token, { items: [], waiting: [] });
    return this.#queues.get(token);
  }

  #hand(token) {
    const { items, waiting } = this.#queue(token);
    while (items.length && waiting.length) waiting.shift().post({ op: 'received', data: items.shift() });
  }
}

const totals = new Map();

function say(file, name, result, why = '') {
  totals.set(result, (totals.get(result) ?? 0) + 1);
  if (options.quiet && result !== 'FAIL') return;
  console.log(`${result.padEnd(5)} ${file} | ${name}${why && ` | ${why.replace(/\s+/g, ' ').slice(0, 300)}`}`);
}

// Error of a query that two restarts in a row have taken away. The package has it for nothing else.
const TAKEN_AWAY = 'OperationError';

/** Causes of failures that are known, by the names of subtests. The harness ends a file with a rejection that nobody handles. */
function knownOf(test, results) {
  const known = new Map(test.known);
  if (!options.restart) return known;
  for (const [name, why] of test.knownAtRestart ?? []) known.set(name, why);
  const lost = results.filter(({ message }) => message?.includes(TAKEN_AWAY)), unrun = results.filter(({ status }) => status === 'NOTRUN');
  for (const { name } of lost) known.set(name, 'restarts have taken its query away');
  if (lost.length) for (const { name } of unrun) known.set(name, 'restarts have taken the query of an earlier subtest away');
  return known;
}

/** Prints the results of a run, and returns whether all that applies has passed. */
function tell({ results, harness, faults }, test, label) {
  const known = knownOf(test, results);
  let isExcused = false, hasFailed = false;
  const fail = (name, why) => {
    hasFailed = true;
    say(label, name, 'FAIL', why);
  };
  for (const { name, status, message } of results) {
    if (status === 'PASS') {
      say(label, name, 'PASS');
    } else if (known.has(name)) {
      isExcused = true;
      say(label, name, 'KNOWN', known.get(name));
    } else {
      fail(name, `${status} ${message ?? ''}`);
    }
  }
  for (const [name, why] of test.skip ?? []) say(label, name, 'SKIP', why);
  if (!results.length) fail('(the run)', 'no results');
  if (harness && harness.status !== 'OK' && !isExcused) fail('(the harness)', `${harness.status} ${harness.message}`);
  for (const fault of faults) fail('(the run)', fault);
  return !hasFailed;
}

/** Files of both folders that the plan does not name. */
function unnamed() {
  const named = new Set([...RUN.map(({ file }) => file), ...SKIP.map(([file]) => file)]);
  const files = FOLDERS.flatMap(folder => fs.readdirSync(path.join(suite, folder)).map(name => `${folder}${name}`));
  return files.filter(file => /\.(js|html)$/.test(file) && !named.has(file)).map(file => [file, 'the plan does not name it']);
}

let isGood = true, restarts = 0;
for (let round = 0; round < Number(options.repeat); round++) {
  for (const test of RUN.filter(({ file }) => file.includes(options.only))) {
    for (const arePairs of options.pairs ? [false, true] : [false]) {
      const run = await new Run(test).run(arePairs);
      restarts += run.restarts;
      isGood = tell(run, test, `${test.file}${arePairs ? ' (pairs)' : ''}`) && isGood;
    }
  }
}
for (const [file, why] of [...SKIP, ...unnamed()]) if (file.includes(options.only)) say(file, '*', 'SKIP', why);
console.log([...totals].map(([result, count]) => `${result} ${count}`).join(', ') + (options.restart ? `; ${restarts} restarts` : ''));
process.exit(isGood ? 0 : 1);
