"""Hostile tabs that forge frames, or send bytes that are no frame, beside honest tabs. They take no lock."""

import pathlib
import socket
import struct

from checks import same
from process_tests.link import ABORT, RELEASE, REPORT, Link, command, frame, post, report, request
from process_tests.stage import ORIGIN, Stage, play, rounds, tells

# Forged messages have generations from 1 up to this one. No flood is long enough to use them up.
GENERATIONS = range(1, 8)
# The most writes of a flood, and the turns of one write.
WRITES = 40
TURNS = 50
POST = bytes(16_384)
# Rounds of an honest tab. Two of them share a counter.
ROUNDS = 30
OVER = f"{2 * ROUNDS}\n"
# A frame of an unknown kind, and a length that no frame has.
GARBAGE = bytes.fromhex("00000002 01 63 FFFFFFFF")


# ---- Roles of `foreign_tab.py`


def is_over(counter):
    """Returns whether all honest rounds of a counter are over."""
    return pathlib.Path(counter).read_text(encoding="utf-8") == OVER


def turn_of(number):
    """Returns a probe and its release in turn, and out of turn a release and an abort of the honest tabs' numbers."""
    frames = []
    for generation in GENERATIONS:
        frames += [report(generation, number), request(generation, number, b"f", 1)]
        frames += [command(generation, number + 1, RELEASE, number)]
        frames += [command(generation, number + 100, RELEASE, 0), command(generation, 0, ABORT, 2)]
    return b"".join(frames)


def talker(path):
    """Contends for the lock `f` by forged messages of all generations, until the tabs of its own origin are done."""
    link = Link(path)
    for write in range(WRITES):
        link.write(b"".join(turn_of(2 * (write * TURNS + turn)) for turn in range(TURNS)))
        if is_over("OWN_COUNTER"):
            break
    link.end(socket.SHUT_RDWR)


def claims():
    """Returns forged reports of each generation that claim the lock `f`, releases of no lock's numbers, and a long post."""
    frames = []
    for generation in GENERATIONS:
        held = struct.pack(">IBBB", 0, 1, 2, 1) + b"f"
        frames.append(frame(REPORT, struct.pack(">IIH", generation, 1, 1) + held))
        frames += [command(generation, number, RELEASE, number) for number in range(1, TURNS)]
    return b"".join([*frames, post(1, POST)])


def claimer(path):
    """Claims the lock `f` of its origin, until the tabs of the other origin are done."""
    link = Link(path)
    for _write in range(WRITES):
        link.write(claims())
        if is_over("OTHER_COUNTER"):
            break
    link.end(socket.SHUT_RDWR)


def garbage(path):
    """Sends frames, and then bytes that are no frame."""
    link = Link(path)
    link.write(report(1) + request(1, 0, b"f", 1) + GARBAGE)


def half(path):
    """Sends half a frame, and ends."""
    link = Link(path)
    link.write(report(1)[:8])


TABS = [talker, claimer, garbage, half]


# ---- Check


def check_hostile(program):
    """Two tabs of the hostile tabs' origin and two of another one hand locks over, and no round is lost."""
    own, other = f"open {ORIGIN}/", "open https://b.test/"
    kernel = f"{own} OWN\n{own} OWN\n{other} OTHER\n{other} OTHER\n"
    kernel += f"{own} talker\n{own} claimer\n{own} garbage\n{own} half\nstart\n{own} garbage\n{own} half\njoin\n"
    files = {"OWN": rounds(ROUNDS, "OWN_COUNTER"), "OTHER": rounds(ROUNDS, "OTHER_COUNTER")}
    counters = {"OWN_COUNTER": "0\n", "OTHER_COUNTER": "0\n"}
    played = play(Stage(program, foreign=True), kernel, **files, **counters)
    # The first four tabs are honest, and the next two send whole frames. The link of any other tab may end before the tab does.
    tells("hostile tabs", played, *[f"ended {tab} 0\n" for tab in range(1, 7)], *[f"ended {tab} " for tab in range(7, 11)])
    for counter in counters:
        same("hostile tabs", counter, played.texts[counter], OVER)


CHECKS = [check_hostile]
