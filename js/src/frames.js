// Fields that a tab reads of its frames itself, since the client has no call for them: its origin, and which commands the broker has
// taken. docs/PROTOCOL.md has the bytes.

const COMMAND = 1, ANSWER = 17, SNAPSHOT = 18, WELCOME = 20;
const LARGEST = 65536;

/** Cuts a stream into frames. Bytes that are no frame are handed on as they are, and the client finds the fault. */
export class Splitter {
  #rest = new Uint8Array(0);

  * push(bytes) {
    let rest = bytes;
    if (this.#rest.length) {
      rest = new Uint8Array(this.#rest.length + bytes.length);
      rest.set(this.#rest);
      rest.set(bytes, this.#rest.length);
    }
    while (rest.length >= 4) {
      const length = u32(rest, 0);
      const end = length >= 2 && length <= LARGEST ? 4 + length : rest.length;
      if (rest.length < end) break;
      yield rest.subarray(0, end);
      rest = rest.subarray(end);
    }
    this.#rest = rest.slice();
  }
}

/** Returns the number of the command in a frame of a tab, or -1. */
export function commandIn(frame) {
  return frame[5] === COMMAND ? u32(frame, 10) : -1;
}

/** Returns how many commands the broker had taken when it made this frame, or 0 if the frame does not say it. */
export function takenIn(frame) {
  if (frame[5] === ANSWER) return u32(frame, 10);
  return frame[5] === SNAPSHOT ? u32(frame, 10) + 1 : 0;
}

/** Returns the own origin in a welcome, which ends with it, or null for another frame. */
export function originIn(frame) {
  if (frame[5] !== WELCOME) return null;
  const first = 8, isPair = frame[4] === 2;
  const at = isPair ? first + 2 + u16(frame, first) : first;
  return new TextDecoder().decode(frame.subarray(at + 2, at + 2 + u16(frame, at)));
}

/** Returns the frames as one piece. */
export function joined(frames) {
  if (frames.length === 1) return frames[0];
  const whole = new Uint8Array(frames.reduce((sum, frame) => sum + frame.length, 0));
  let at = 0;
  for (const frame of frames) {
    whole.set(frame, at);
    at += frame.length;
  }
  return whole;
}

function u16(bytes, at) { return (bytes[at] << 8) | bytes[at + 1]; }

function u32(bytes, at) {
  return at + 4 <= bytes.length ? new DataView(bytes.buffer, bytes.byteOffset).getUint32(at) : 0;
}
