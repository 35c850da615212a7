// Plays operations on a hub and its clients with the modules. Operations and output match lab/native.c.

import { Client, Hub } from '../src/index.js';
import { STATUSES } from '../src/module.js';
import { clientModule, hubModule } from './lab.js';

const KINDS = ['', 'welcomed', 'entered', 'granted', 'waiting', 'notAvailable', 'lost', 'answered', 'posted', 'other'];
const hex = bytes => Buffer.from(bytes).toString('hex');
const bytesOf = digits => (digits === undefined || digits === '-' ? new Uint8Array() : Uint8Array.from(Buffer.from(digits, 'hex')));

function eventText(event) {
  const number = event.tab ?? event.generation ?? event.number ?? 0;
  const items = event.ended ?? event.channels ??
    event.entries?.map(({ tab, mode, isHeld, name }) => `${tab}/${mode === 'shared' ? 1 : 0}/${isHeld ? 1 : 0}/${hex(name)}`) ?? [];
  return ` [${[KINDS.indexOf(event.kind), number, items.length, ...items].join(' ')}]`;
}

/** Returns the output of the operations. */
export async function play(operations) {
  const clients = new Map();
  let hub, text = '';

  const statusOf = run => {
    try {
      return [0, run() ?? 0];
    } catch (error) {
      if (error.name !== 'WlbError') throw error;
      return [STATUSES.indexOf(error.code), 0];
    }
  };
  const cut = (bytes, piece) => Array.from({ length: Math.ceil(bytes.length / piece) }, (_, n) => bytes.subarray(n * piece, (n + 1) * piece));
  const giveHub = (tab, bytes, piece) => {
    for (const part of cut(bytes, piece)) {
      const [status] = statusOf(() => hub.receive(tab, part));
      if (!status) continue;
      text += ` fault ${status}`;
      return;
    }
  };
  const giveClient = (client, frame, piece) => {
    for (const part of cut(frame, piece)) {
      const [status] = statusOf(() => client.receive(part, event => { text += eventText(event); }));
      if (status) text += ` fault ${status}`;
    }
  };

  for (const operation of operations) {
    const [verb, ...words] = operation.split(' '), tab = Number(words[0] ?? 0), client = clients.get(tab);
    const at = Number(words[1] ?? 0), first = () => bytesOf(words[1]), second = () => bytesOf(words[2]);
    const string = bytes => new TextDecoder().decode(bytes);
    text += `${verb} ${tab}:`;
    const [status, number] = await {
      hub: async () => { hub = await Hub.create(hubModule); return [0, 0]; },
      client: async () => { clients.set(tab, await Client.create(clientModule)); return [0, 0]; },
      open: () => statusOf(() => hub.open(tab, string(first()))),
      pair: () => statusOf(() => hub.openPair(tab, string(first()), string(second()))),
      close: () => statusOf(() => hub.close(tab)),
      restart: () => statusOf(() => hub.restart()),
      bytes: () => { giveHub(tab, first(), first().length); return [0, 0]; },
      up: () => {
        for (const frame of client.outputs()) {
          text += ` ${hex(frame)}`;
          giveHub(tab, frame, at);
        }
        return [0, 0];
      },
      down: () => {
        for (const [to, frame] of hub.outputs()) {
          text += ` ${to}:${hex(frame)}`;
          giveClient(clients.get(to), frame, tab);
        }
        return [0, 0];
      },
      request: () => statusOf(() => client.request(first(), words[2])),
      probe: () => statusOf(() => client.probe(first(), words[2])),
      query: () => statusOf(() => client.query()),
      abort: () => statusOf(() => client.abort(at)),
      release: () => statusOf(() => client.release(at)),
      resend: () => statusOf(() => client.resend()),
      channel: () => statusOf(() => client.openChannel(first())),
      post: () => statusOf(() => client.post(at, second())),
      shut: () => statusOf(() => client.closeChannel(at)),
      read: () => {
        let isEmpty = false;
        const result = statusOf(() => {
          const post = client.read(at);
          if (post) text += ` ${post.source}:${hex(post.data)}`;
          else isEmpty = true;
        });
        return isEmpty ? [STATUSES.indexOf('IDLE'), 0] : result;
      },
    }[verb]();
    text += ` = ${status} ${number}\n`;
  }
  const { generation, living, untold, outputs } = hub.status();
  return `${text}${generation} ${living} ${untold} ${outputs}\n`;
}
