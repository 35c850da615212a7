// A client for the test vectors of the protocol: python3 tools/check_vectors.py --client "node js/lab/vectors.js"
//
// It reads a line of JSON for each step of a conversation and writes one, as the head of that tool says.

import readline from 'node:readline';
import { Client, WlbError } from '../src/index.js';
import { clientModule } from './lab.js';

const bytesOf = hex => Uint8Array.from(Buffer.from(hex, 'hex')), hexOf = bytes => Buffer.from(bytes).toString('hex').toUpperCase();
const utf8 = text => new TextEncoder().encode(text), textOf = bytes => new TextDecoder().decode(bytes);

const client = await Client.create(clientModule);
let reports = [];

const rowsOf = entries => entries.map(({ tab, mode, name }) => [tab, mode, textOf(name)]);
const snapshotOf = entries => ({
  held: rowsOf(entries.filter(entry => entry.isHeld)),
  pending: rowsOf(entries.filter(entry => !entry.isHeld)),
});

/** Notes an event as the vectors write it. */
function tell(event) {
  switch (event.kind) {
    case 'welcomed': reports.push({ welcomed: event.tab }); break;
    case 'entered': reports.push({ entered: event.generation, ended: event.ended }); break;
    case 'answered': reports.push({ snapshot: event.number, ...snapshotOf(event.entries) }); break;
    case 'posted': reports.push({ posted: event.channels }); break;
    case 'notAvailable': reports.push({ 'not available': event.number }); break;
    default: reports.push({ [event.kind]: event.number });
  }
}

function read(channel) {
  const post = client.read(channel);
  return { gets: post && [post.source, hexOf(post.data)] };
}

const ACTIONS = {
  receives: frames => client.receive(bytesOf(frames.join('')), tell),
  request: ([name, mode]) => ({ number: client.request(utf8(name), mode) }),
  probe: ([name, mode]) => ({ number: client.probe(utf8(name), mode) }),
  query: () => ({ number: client.query() }),
  abort: number => client.abort(number),
  release: number => client.release(number),
  resend: () => client.resend(),
  open: name => ({ number: client.openChannel(utf8(name)) }),
  post: ([channel, data]) => client.post(channel, bytesOf(data)),
  read,
  close: channel => client.closeChannel(channel),
};

function play(action, value) {
  try {
    return ACTIONS[action](value);
  } catch (error) {
    if (error instanceof WlbError) return { refused: error.code };
    throw error;
  }
}

for await (const line of readline.createInterface({ input: process.stdin })) {
  const [[action, value]] = Object.entries(JSON.parse(line));
  reports = [];
  const result = play(action, value);
  client.takeEvents(tell);
  console.log(JSON.stringify({ ...result, reports, sends: [...client.outputs()].map(hexOf) }));
}
