"""Plays the test vectors of the protocol through the C libraries, with memory refused.

It plays each conversation of `tabs` and `hubs` in `docs/vectors/protocol.json` again and again. One play refuses one allocation of the
library. The call that needs it returns WLB_MEMORY, or has a spare buffer. A refused call is repeated, and the conversation has to go on
as if nothing had happened. A refused call of a hub may change none of the hub's numbers, but a refused restart leaves no broker up.

FOLDER has the shared libraries of both parts, linked with `refuse_numbered.c`, as `check_library.py` makes them. The tool refuses up to
60 allocations of each conversation, spread evenly, or with `--all` every one. It prints each difference. The status is 1 if there is one.
"""

import argparse
import ctypes
import json
import sys

import argument_types
import check_vectors
from checks import differences, same

# The most allocations of a conversation that are refused.
SAMPLE = 60


class Numbers(ctypes.Structure):
    _fields_ = [("generation", ctypes.c_uint32), ("living", ctypes.c_uint32), ("untold", ctypes.c_uint32), ("outputs", ctypes.c_uint64)]


class Repeated:
    """A handle whose refused calls are repeated."""

    def status(self, name, *words):
        before = self.numbers()
        status = super().status(name, *words)
        if status != "MEMORY":
            return status
        if name == "restart":
            before = (0, *before[1:])
        same(f"{self.part} {name}", "what a refused call leaves", self.numbers(), before)
        return super().status(name, *words)

    def numbers(self):
        """Returns the numbers of a hub. A client has none."""
        return ()


class Tab(Repeated, check_vectors.Tab):
    pass


class Hub(Repeated, check_vectors.Hub):
    def numbers(self):
        numbers = Numbers()
        status = self.library.wlb_hub_status(ctypes.byref(self.handle), ctypes.byref(numbers))
        return tuple(getattr(numbers, name) for name, _ in Numbers._fields_) if status == 0 else ()


def play_tab(folder, vector):
    check_vectors.check_conversation(Tab(folder, check_vectors.whole), vector)


def play_hub(folder, vector):
    check_vectors.check_hub_conversation(Hub(folder), vector)


def sample(count, most):
    """Returns up to `most` numbers from 1 to `count`, spread evenly. If `most` is None, returns all."""
    if most is None or count <= most:
        return range(1, count + 1)
    return sorted({1 + place * count // most for place in range(most)})


def check(folder, part, play, vectors, most):
    library = ctypes.CDLL(str(folder / f"libwlb_{part}.so"))
    library.allocations.restype = ctypes.c_long
    for vector in vectors:
        library.refuse(ctypes.c_long(0))
        play(folder, vector)
        count = library.allocations()
        same(vector["name"], "whether it allocates", count > 0, True)
        for number in sample(count, most):
            before = len(differences)
            library.refuse(ctypes.c_long(number))
            play(folder, vector)
            same(vector["name"], "whether the allocation was refused", library.allocations() >= number, True)
            differences[before:] = [f"allocation {number} of {count}: {difference}" for difference in differences[before:]]


def main():
    parser = argparse.ArgumentParser(description=__doc__, formatter_class=argparse.RawDescriptionHelpFormatter)
    parser.add_argument("folder", metavar="FOLDER", type=argument_types.folder, help="the libraries that refuse an allocation")
    parser.add_argument("--all", action="store_true", help="refuse every allocation, not a sample")
    given = parser.parse_args()
    most = None if given.all else SAMPLE
    vectors = json.loads(check_vectors.VECTORS.read_text(encoding="utf-8"))
    folder = given.folder.absolute()
    check(folder, "client", play_tab, vectors["tabs"], most)
    check(folder, "hub", play_hub, vectors["hubs"], most)
    for difference in differences:
        print(difference)
    sys.exit(1 if differences else 0)


if __name__ == "__main__":
    main()
