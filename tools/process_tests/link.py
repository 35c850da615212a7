"""Tab's or broker's end of a link to the kernel, and the frames that it sends. `docs/PROTOCOL.md` has the frames."""

import socket
import struct

# Seconds for one read or write.
SECONDS = 20
CHANNEL = b"\x01n"

COMMAND, REPORT, POST, HELLO, ANSWER, HEARD, WELCOME = 1, 2, 3, 16, 17, 19, 20
# Operations of commands, and outcomes.
RELEASE, ABORT = 2, 3
WAITING, GRANTED, GONE = 1, 2, 3


class Unexpected(OSError):
    """A frame that the role does not expect, or a frame that is missing."""


def frame(kind, fields):
    body = bytes([1, kind]) + fields
    return struct.pack(">I", len(body)) + body


def report(generation, base=0, count=0, entries=b""):
    return frame(REPORT, struct.pack(">IIH", generation, base, count) + entries)


def request(generation, number, name, flag=0):
    """Returns a request of an exclusive lock. The flag 1 makes it a probe."""
    return frame(COMMAND, struct.pack(">II", generation, number) + bytes([1, 2, flag, len(name)]) + name)


def command(generation, number, operation, of):
    """Returns the release or the abort of a number."""
    return frame(COMMAND, struct.pack(">IIBI", generation, number, operation, of))


def post(number, data):
    return frame(POST, struct.pack(">I", number) + CHANNEL + struct.pack(">H", len(data)) + data)


class Link:
    """Tab's or broker's end of its link."""

    def __init__(self, path):
        self.socket = socket.socket(socket.AF_UNIX)
        self.socket.settimeout(SECONDS)
        self.socket.connect(path)

    def read(self, count):
        got = b""
        while len(got) < count:
            piece = self.socket.recv(count - len(got))
            if not piece:
                raise Unexpected("the link has ended")
            got += piece
        return got

    def expect(self, wanted):
        """Reads bytes, which have to be these."""
        found = self.read(len(wanted))
        if found != wanted:
            raise Unexpected(f"got {found.hex()}, not {wanted.hex()}")

    def frame(self):
        """Returns the kind of the next frame, and its fields."""
        (length,) = struct.unpack(">I", self.read(4))
        body = self.read(length)
        return body[1], body[2:]

    def until(self, kind):
        """Returns the fields of the next frame of this kind, and ignores the frames before it."""
        while True:
            found, fields = self.frame()
            if found == kind:
                return fields

    def write(self, frames):
        self.socket.sendall(frames)

    def send(self, kind, fields):
        self.write(frame(kind, fields))

    def post(self, number, data):
        self.write(post(number, data))

    def ask(self, generation, number, name):
        """Requests an exclusive lock."""
        self.write(request(generation, number, name))

    def join(self, generation):
        """Enters a generation with an empty report."""
        self.write(report(generation))

    def leave(self):
        """Closes the link once all bytes are read, as a tab has to."""
        self.end(socket.SHUT_WR)

    def end(self, halves):
        """Ends one half of the link or both, reads the bytes that still come, and closes the link."""
        self.socket.shutdown(halves)
        while self.socket.recv(4096):
            pass
        self.socket.close()
