#!/usr/bin/env python3
"""Plays tabs and brokers that are not the program, for `check_processes.py`.

A kernel whose argument 0 is this file starts it as `tab --socket PATH SCRIPT` or `broker --socket PATH ..`. If SCRIPT has the
name of a role below, the tab plays that role. If the environment variable BROKER_ROLE has one, the broker of generation 1 plays
it. For any other words the file becomes the program that the environment variable WLB names.

The status is 0 if the role saw the expected frames. Else it is 1, with a line on standard error.
"""

import argparse
import contextlib
import os
import pathlib
import socket
import stat
import struct
import sys
import time

from process_tests import hostile, order
from process_tests.link import ANSWER, CHANNEL, GRANTED, HEARD, HELLO, SECONDS, WELCOME, Link, Unexpected

POSTS = 200


def wait_for_file(name):
    until = time.monotonic() + SECONDS
    while not os.path.exists(name):
        if time.monotonic() > until:
            raise Unexpected(f"no file {name}")
        time.sleep(0.005)


def data_of(number):
    return b"%d of %d" % (number, POSTS)


# ---- Tabs


def speak(link):
    """Requests the exclusive lock `a` of `https://a.test` in generation 1, and waits for its grant. Each byte is as expected."""
    link.expect(bytes.fromhex("00000014 01 14 0001 000E") + b"https://a.test")
    link.expect(bytes.fromhex("00000006 01 10 00000001"))
    link.write(bytes.fromhex("0000000C 01 02 00000001 00000000 0000 0000000F 01 01 00000001 00000000 01 02 00 01 61"))
    # A second Hello comes only to a listed tab, so the grant is next.
    link.expect(bytes.fromhex("0000000F 01 11 00000001 00000001 00000000 02"))


def speaker(path):
    """Is granted a lock, and ends."""
    speak(Link(path))


def remover(path):
    """Removes the file of its socket unless the kernel has, is granted a lock, and ends."""
    link = Link(path)
    pathlib.Path(path).unlink(missing_ok=True)
    speak(link)


def poster(path):
    """Posts, and ends."""
    link = Link(path)
    link.until(WELCOME)
    for number in range(POSTS):
        link.post(number, data_of(number))
    link.post(POSTS, b"over")
    link.leave()


def hearer(path):
    """Hears each post of tab 2 once, in order, with its source and its data."""
    link = Link(path)
    link.until(WELCOME)
    for number in range(POSTS + 1):
        fields = link.until(HEARD)
        data = b"over" if number == POSTS else data_of(number)
        wanted = struct.pack(">HI", 2, number) + CHANNEL + struct.pack(">H", len(data)) + data
        if fields != wanted:
            raise Unexpected(f"heard {fields}, not {wanted}")
    link.leave()


def stale(path):
    """Enters generation 2, and gets its Hello again for a command of generation 1."""
    link = Link(path)
    generation = int.from_bytes(link.until(HELLO), "big")
    link.join(generation)
    link.ask(generation, 0, b"a")
    answer = link.until(ANSWER)
    if (generation, answer[-1]) != (2, GRANTED):
        raise Unexpected(f"generation {generation} and the answer {answer}")
    link.ask(1, 1, b"b")
    told = link.frame()
    if told != (HELLO, struct.pack(">I", generation)):
        raise Unexpected(f"got {told} for a command of generation 1")
    link.leave()


def closer(path):
    """Closes its link and runs on."""
    link = Link(path)
    link.until(WELCOME)
    link.socket.close()
    time.sleep(SECONDS)


def sleeper(path):
    """Keeps its link, ignores it and runs on."""
    link = Link(path)
    link.until(WELCOME)
    time.sleep(SECONDS)


def deaf(path):
    """Closes the reading half of its link, and runs on."""
    link = Link(path)
    link.until(WELCOME)
    link.socket.shutdown(socket.SHUT_RD)
    pathlib.Path("DEAF").touch()
    time.sleep(SECONDS)


def teller(path):
    """Posts once another tab is deaf, fifty times in a second."""
    link = Link(path)
    link.until(WELCOME)
    wait_for_file("DEAF")
    for number in range(50):
        link.post(number, b"x")
        time.sleep(0.02)
    link.leave()


def dier(path):
    """Holds a lock until the file DIE is made."""
    link = Link(path)
    generation = int.from_bytes(link.until(HELLO), "big")
    link.join(generation)
    link.ask(generation, 0, b"f")
    if link.until(ANSWER)[-1] != GRANTED:
        raise Unexpected("the lock was not granted")
    pathlib.Path("HELD").touch()
    wait_for_file("DIE")
    link.leave()


def flooder(path):
    """Sends commands until the kernel has read none for half a second, and runs on."""
    link = Link(path)
    generation = int.from_bytes(link.until(HELLO), "big")
    wait_for_file("FLOOD")
    link.socket.settimeout(0.5)
    with contextlib.suppress(TimeoutError):
        while True:
            link.ask(generation, 0, b"a")
    pathlib.Path("FULL").touch()
    time.sleep(SECONDS)


def gate(path):
    """Connects once the file GATE is made. The kernel's script waits until then."""
    wait_for_file("GATE")
    link = Link(path)
    link.until(WELCOME)
    link.leave()


def leave_child(link, work):
    """Starts a child that keeps the link and repeats `work` until the link fails. The parent ends with status 7."""
    if os.fork() == 0:
        until = time.monotonic() + SECONDS
        with contextlib.suppress(OSError):
            while time.monotonic() < until:
                work(link)
        os._exit(0)
    os._exit(7)


def send_a_post(link):
    link.post(0, b"x")
    time.sleep(0.05)


def quiet_leaver(path):
    """Leaves a child that reads its link."""
    link = Link(path)
    link.until(WELCOME)
    leave_child(link, lambda link: link.read(1))


def noisy_leaver(path):
    """Leaves a child that sends on its link again and again."""
    link = Link(path)
    link.until(WELCOME)
    leave_child(link, send_a_post)


def looker(path):
    """Checks before it connects that only the owner may use the file of its socket."""
    mode = stat.S_IMODE(os.stat(path).st_mode)
    link = Link(path)
    link.until(WELCOME)
    if mode != 0o600:
        raise Unexpected(f"the mode of the socket is {mode:o}")
    link.leave()


# ---- Brokers


def leaving_broker(path):
    """Ends at once, and leaves a child that sends Hello frames for a tab that does not exist."""
    link = Link(path)
    link.frame()

    def greet(link):
        link.send(34, struct.pack(">H", 60_000) + b"\x01\x10" + struct.pack(">I", 1))
        time.sleep(0.05)

    leave_child(link, greet)


TALKING = [speaker, remover, poster, hearer, stale, teller, dier, flooder, gate, looker]
LEAVING = [closer, sleeper, deaf, quiet_leaver, noisy_leaver]
TABS = [*TALKING, *LEAVING, *hostile.TABS, *order.TABS]
BROKERS = [leaving_broker]


def role_of(words):
    """Returns the role that the kernel's words name, or None."""
    if words[0] == "tab":
        return {role.__name__: role for role in TABS}.get(os.path.basename(words[-1]))
    if words[0] == "broker" and words[2].endswith("broker1.sock"):
        return {role.__name__: role for role in BROKERS}.get(os.environ.get("BROKER_ROLE"))
    return None


def main():
    parser = argparse.ArgumentParser(description=__doc__, formatter_class=argparse.RawDescriptionHelpFormatter)
    parser.add_argument("kind", metavar="KIND", help="`tab` or `broker`")
    parser.add_argument("words", metavar="WORD", nargs=argparse.REMAINDER, help="the other words of the kernel")
    given = parser.parse_args()
    role = role_of([given.kind, *given.words])
    if role is None:
        if "WLB" not in os.environ:
            parser.error("a kernel starts this file, and the environment variable WLB names the program `wlb`")
        os.execv(os.environ["WLB"], sys.argv)
    try:
        role(sys.argv[3])
    except (OSError, Unexpected) as fault:
        print(f"{role.__name__}: {fault}", file=sys.stderr)
        sys.exit(1)


if __name__ == "__main__":
    main()
