"""Two tabs that look whether a post overtakes a command before it on the same link.

In each even turn the poster requests a lock, and in the next it releases it, with a post behind the command. The prober probes
the lock as soon as it hears the post, and then asks for the next turn.
"""

from process_tests.link import ANSWER, GONE, GRANTED, HEARD, HELLO, RELEASE, WAITING
from process_tests.link import Link, Unexpected, command, post, report, request
from process_tests.stage import Stage, ended, ends, opened, opens, play

TURNS = 200
# Empty posts behind a turn's post. The kernel reads them with the command, and passes them on before it reads again. All of them
# fit into an outbox.
EMPTY_POSTS = 200
# The poster has requested the lock, or released it. The prober is ready for the next turn. A tab was answered otherwise than the
# order of commands and posts allows.
REQUESTED, RELEASED, NEXT, BROKEN = b"q", b"r", b"n", b"x"


# ---- Roles of `foreign_tab.py`


def enter(path):
    """Returns a link that has entered generation 1."""
    link = Link(path)
    link.until(HELLO)
    link.write(report(1))
    return link


def said(link):
    """Returns the kind of the next frame, and its data: the outcome of an answer, or the data of a post."""
    kind, fields = link.frame()
    if kind == ANSWER:
        return kind, fields[-1]
    # A post has its source, its number, and the name of a channel of one letter before the length of its data.
    return kind, fields[10:] if kind == HEARD else None


def break_off(link, why):
    """Tells the other tab that the order is broken, and fails."""
    link.post(2**32 - 1, BROKEN)
    raise Unexpected(why)


def turn_of(turn):
    """Returns the poster's request of the lock `f` or its release, with the posts behind it."""
    number = turn * (EMPTY_POSTS + 1)
    frames = [request(1, turn, b"f"), post(number, REQUESTED)]
    if turn % 2:
        frames = [command(1, turn, RELEASE, turn - 1), post(number, RELEASED)]
    return b"".join([*frames, *[post(number + more, b"") for more in range(1, EMPTY_POSTS + 1)]])


def wait_for_prober(link):
    """Waits for the prober. Its release came before its post, so no request of the poster waits."""
    while (heard := said(link)) != (HEARD, NEXT):
        if heard == (ANSWER, WAITING):
            break_off(link, "a request waits")
        if heard == (HEARD, BROKEN):
            raise Unexpected("the prober has broken off")


def orderer(path):
    """Requests a lock and releases it in turn, each with a post behind it."""
    link = enter(path)
    for turn in range(TURNS):
        wait_for_prober(link)
        link.write(turn_of(turn))
    wait_for_prober(link)
    link.leave()


def wait_for_orderer(link):
    """Waits for the poster's turn, and returns which outcome a probe has then."""
    outcomes = {REQUESTED: GONE, RELEASED: GRANTED}
    while True:
        kind, data = said(link)
        if kind == HEARD and data:
            if data not in outcomes:
                raise Unexpected(f"heard {data}")
            return outcomes[data]


def wait_for_outcome(link):
    """Waits for the outcome of a probe and for all empty posts of the turn. Returns the outcome."""
    outcome, posts = None, 0
    while outcome is None or posts < EMPTY_POSTS:
        kind, data = said(link)
        if kind == HEARD and data:
            raise Unexpected(f"heard {data}")
        posts += kind == HEARD
        if kind == ANSWER and data in (GRANTED, GONE):
            outcome = data
    return outcome


def prober(path):
    """Probes the lock at each of the poster's turns, and releases it if the probe was granted."""
    link = enter(path)
    link.post(0, NEXT)
    number = 0
    for turn in range(1, TURNS + 1):
        wanted = wait_for_orderer(link)
        link.write(request(1, number, b"f", 1))
        outcome = wait_for_outcome(link)
        if outcome != wanted:
            break_off(link, f"the outcome of probe {number} is {outcome}, not {wanted}")
        if outcome == GRANTED:
            link.write(command(1, number + 1, RELEASE, number))
            number += 1
        link.post(turn, NEXT)
        number += 1
    link.leave()


TABS = [orderer, prober]


# ---- Check


def check_order(program):
    """No post overtakes a request or a release before it on its link."""
    for lanes, shards in [(1, 1), (2, 1), (4, 2)]:
        stage = Stage(program, foreign=True, lanes=lanes, shards=shards)
        played = play(stage, f"start\n{opens('orderer', 'prober')}join\n")
        ends(f"posts behind commands over {lanes} lanes and {shards} shards", played, "up 1\n" + opened(1, 2) + ended(0, 0))


CHECKS = [check_order]
