// Messages between a runner and the processes of its tabs: a length in four bytes, and a value as node:v8 serializes it.

import v8 from 'node:v8';

/** Calls `come` with each message of a socket. */
export function receive(socket, come) {
  let rest = Buffer.alloc(0);
  socket.on('data', piece => {
    rest = Buffer.concat([rest, piece]);
    while (rest.length >= 4 && rest.length >= 4 + rest.readUInt32BE(0)) {
      const end = 4 + rest.readUInt32BE(0), message = v8.deserialize(rest.subarray(4, end));
      rest = rest.subarray(end);
      come(message);
    }
  });
}

export function send(socket, message) {
  const body = v8.serialize(message), head = Buffer.alloc(4);
  head.writeUInt32BE(body.length);
  if (socket.writable) socket.write(Buffer.concat([head, body]));
}
