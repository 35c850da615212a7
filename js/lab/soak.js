// Stress: tabs that request, probe, abort and query at random, while tabs are killed and the broker is restarted.
//
// usage: node js/lab/soak.js [--processes] [--seconds N] [--tabs N] [--seed TEXT] [--restart MS] [--kill MS] [--wrong]
//
//   --processes  tabs are processes of `wlb kernel`, and brokers are killed. Otherwise they are threads with a host in this process
//   --restart    milliseconds between restarts, on average
//   --kill       milliseconds between the ends of tabs, on average
//   --wrong      plays clients that do not wait for their locks, and clients that do not report them to the next broker
//
// The status is 1 if two holders have met, if a counter is wrong, if a request was not granted in time, if a snapshot shows a request that
// waits for a lock that nobody holds, if a tab waits with a request that the broker does not have, or if a process or a tab has ended
// otherwise than it should. With --wrong it is 1 if the wrong clients were not noticed.

import { commandLine } from './command_line.js';
import { needProgram } from './kernel.js';

const text = value => ({ type: 'string', default: value }), flag = { type: 'boolean', default: false };
const { values } = commandLine(import.meta.url, {
  processes: flag, seconds: text('20'), tabs: text('6'), seed: text('1'), restart: text(''), kill: text('700'), wrong: flag,
});
const numbers = Object.fromEntries(['seconds', 'tabs', 'kill'].map(key => [key, Number(values[key])]));
const options = { ...numbers, seed: values.seed, restart: Number(values.restart || (values.processes ? 200 : 40)), patience: 20000 };
if (values.processes) needProgram();
const soak = values.processes ? (await import('./soak_processes.js')).soakProcesses : (await import('./soak_threads.js')).soakThreads;

/** Plays clients that are wrong, and returns whether that was noticed. */
async function isNoticed(wrong) {
  const { faults } = await soak({ ...options, wrong, patience: 3000 });
  const met = faults.find(fault => fault.includes('have met'));
  console.log(`${wrong} clients: ${met ?? 'not noticed'}`);
  return met !== undefined;
}

async function play() {
  const { faults, sums, restarts, kills } = await soak(options);
  if (!sums.sections) faults.push('no section has run');
  for (const fault of faults.slice(0, 30)) console.log(fault);
  console.log(`${Object.entries(sums).map(([key, sum]) => `${sum} ${key}`).join(', ')}; ${restarts} restarts, ${kills} killed tabs`);
  return !faults.length;
}

const isGood = values.wrong ? [await isNoticed('hasty'), await isNoticed('forgetful')].every(Boolean) : await play();
process.exit(isGood ? 0 : 1);
