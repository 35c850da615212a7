"""Lanes of a broker. A check plays its kernel.

A busy lane keeps no other lane waiting. A lane that has used up a generation ends all lanes. Each tab is sent its frames in the
order of the desk.
"""

import contextlib
import os
import random
import socket
import struct
import subprocess
import tempfile

from checks import SECONDS, Ended, differences, same

# Requests for the busy lane, which come at once.
REQUESTS = 20
WAITING, GRANTED = 1, 2
START = bytes.fromhex("00000008 01 21 00000001 0000")
ANSWER = 23


def stamped(tab, body, partition=None):
    """Returns the frame of a tab, which is alone in the partition of its number unless it is given."""
    return struct.pack(">IBBHH", 6 + len(body), 1, 32, tab, partition or tab) + body


def report(tab, partition=None):
    return stamped(tab, bytes.fromhex("01 02 00000001 00000000 0000"), partition)


def request(tab, number):
    """Returns a request for the exclusive lock `a`."""
    return stamped(tab, struct.pack(">BBII", 1, 1, 1, number) + bytes.fromhex("01 02 00 01 61"))


def answer(tab, number, outcome):
    return struct.pack(">IBBHBBIIIB", ANSWER - 4, 1, 34, tab, 1, 17, 1, number + 1, number, outcome)


def converse(link):
    """Returns the first answer of lane 1, the later ones in their order, and those of lane 0. Lane 1 has served once before it is
    made busy."""
    link.sendall(START + report(2) + report(1) + request(1, 0))
    with link.makefile("rb") as frames:
        first = frames.read(ANSWER)
        link.sendall(b"".join(request(1, number) for number in range(1, REQUESTS + 1)) + request(2, 0))
        answers = [frames.read(ANSWER) for _answer in range(REQUESTS + 1)]
    link.shutdown(socket.SHUT_RDWR)
    other = answer(2, 0, GRANTED)
    return first, [it for it in answers if it != other], answers.count(other)


def serve(program, name, lanes, shards, limit, talk):
    """Runs a broker. `talk` is called with its link, and with a function that waits for the broker's end."""
    with tempfile.TemporaryDirectory(prefix="wlb-") as folder, socket.socket(socket.AF_UNIX) as listener:
        path = os.path.join(folder, "broker.sock")
        listener.bind(path)
        listener.listen()
        listener.settimeout(SECONDS)
        words = ["broker", "--socket", path, "--lanes", str(lanes), "--shards", str(shards), "--limit", str(limit)]
        pipes = {"stdin": subprocess.DEVNULL, "stdout": subprocess.PIPE, "stderr": subprocess.PIPE}
        broker = subprocess.Popen([program, *words], cwd=folder, **pipes)
        with contextlib.ExitStack() as stack:
            try:
                link = stack.enter_context(listener.accept()[0])
                link.settimeout(SECONDS)
                talk(link, lambda: broker.wait(SECONDS))
                broker.wait(SECONDS)
            except (TimeoutError, subprocess.TimeoutExpired) as late:
                differences.append(f"{name}: {late}")
                broker.kill()
        stdout, stderr = broker.communicate()
    same(name, "standard output, standard error and the status", (stdout, stderr, broker.returncode), (b"", b"", 0))


def check_busy_lane(program):
    """Tab 1 of lane 1 gets its answers in order, and tab 2 of lane 0 gets its answer among them."""
    wanted = answer(1, 0, GRANTED), [answer(1, number, WAITING) for number in range(1, REQUESTS + 1)], 1

    def talk(link, _wait):
        same("a busy lane", "the list of answers", converse(link), wanted)

    serve(program, "a busy lane", 2, 2, 65_536, talk)


def check_spent_lane(program):
    """One lane uses up the generation's only step while the link stays open. The other lane ends too, although nothing comes for
    it."""

    def talk(link, wait):
        link.sendall(START + 4 * report(2))
        wait()

    serve(program, "a spent generation", 2, 1, 1, talk)


# ---- Order of the frames

# Four successive tabs share a partition. Behind some of its commands the last tab of each partition dies.
TABS = range(1, 17)
COMMANDS = 40
LAST_COMMANDS = 25
SEED = 20_261_130


def random_command(dice, number):
    """Returns the body of a command with a random operation. It names one of the numbers before it."""
    earlier = struct.pack(">I", dice.randrange(max(number, 1)))
    name = bytes([1]) + dice.choice(b"abc").to_bytes(1, "big")
    asked = bytes([1, dice.randrange(1, 3), dice.randrange(4) == 0]) + name
    [operation] = dice.choices([asked, b"\x02" + earlier, b"\x03" + earlier, b"\x04"], [4, 2, 1, 1])
    return struct.pack(">BBII", 1, 1, 1, number) + operation


def conversation():
    """Returns the bytes of a Start frame without tabs, and of reports and random commands of all tabs in turn."""
    dice = random.Random(SEED)
    frames = [START, *[report(tab, (tab + 3) // 4) for tab in TABS]]
    for number in range(COMMANDS):
        for tab in TABS:
            command = stamped(tab, random_command(dice, number), (tab + 3) // 4)
            is_last = number == LAST_COMMANDS and tab % 4 == 0
            frames.append(struct.pack(">IBBH", 4, 1, 35, tab) if is_last else command)
    return b"".join(frames)


def frames_by_tab(output):
    """Returns the frames for each tab, in their order."""
    found = {tab: [] for tab in TABS}
    while output:
        end = 4 + int.from_bytes(output[:4], "big")
        found[int.from_bytes(output[6:8], "big")].append(output[:end])
        output = output[end:]
    return found


def check_order_of_lanes(program):
    """Over any numbers of lanes and shards each tab is sent what the desk sends it for the same input, in the same order: the
    messages of a partition are done in the order of the link, and their frames leave in the order of the steps. The tabs of a
    partition have different lanes. No tab is sent nothing."""
    given = conversation()
    desk = Ended(program, ["desk"], given)
    same("the desk", "the status and standard error", (desk.status, desk.stderr), (0, ""))
    wanted = frames_by_tab(desk.stdout)
    same("the desk", "whether it sends each tab a frame", all(wanted.values()), True)
    for lanes, shards in [(2, 1), (4, 1), (4, 3), (2, 16)]:
        name = f"the order of {lanes} lanes over {shards} shards"

        def talk(link, _wait, name=name):
            link.sendall(given)
            link.shutdown(socket.SHUT_WR)
            with link.makefile("rb") as output:
                found = frames_by_tab(output.read())
            for tab in TABS:
                same(name, f"the list of frames for tab {tab}", found[tab], wanted[tab])

        serve(program, name, lanes, shards, 65_536, talk)


CHECKS = [check_busy_lane, check_spent_lane, check_order_of_lanes]
