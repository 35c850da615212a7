"""Scripts of the sim with their expected output, and runs of them."""

import pathlib

from checks import Ended, ends

ROWS = pathlib.Path(__file__).resolve().parent / "rows"


class Play:
    """Script, and the output that is expected of it."""

    def __init__(self):
        self.script = ""
        self.output = ""

    def part(self, text):
        """Adds lines of a row: a line behind `> ` to the script, and any other line to the output. Returns the play."""
        for line in text.splitlines():
            if line.startswith(">"):
                self.script += line[2:] + "\n"
            else:
                self.output += line + "\n"
        return self

    def each(self, numbers, offset, template):
        """Adds the lines of a template for each number `{n}`. `{m}` stands for the sum of the number and the offset."""
        self.part("".join(filled(template, number, number + offset) + "\n" for number in numbers))


def filled(template, number, other):
    return template.strip("\n").replace("{n}", str(number)).replace("{m}", str(other))


def rows():
    """Returns the plays of the files in `rows`, by name.

    A line `[NAME]` begins a row, and `[NAME: OTHER]` one that begins with the lines of another row. A line behind `#` is a
    comment. Any other line is one of the script, behind `>`, or one of the output.
    """
    plays, play = {}, None
    for file in ["queues", "restarts", "posts", "hostile", "refusals"]:
        for line in (ROWS / f"{file}.txt").read_text(encoding="utf-8").splitlines():
            if line.startswith("["):
                name, _, front = line.strip("[]").partition(": ")
                play = plays[name] = Play()
                if front:
                    play.script, play.output = plays[front].script, plays[front].output
            elif line and not line.startswith("#"):
                play.part(line)
    return plays


def run(program, script):
    """Runs the sim on a script."""
    return Ended(program, ["sim"], script if isinstance(script, bytes) else script.encode())


def expect(program, name, script, output, stderr=(), status=0):
    """Runs a script, and compares its output, standard error and status."""
    ends(name, run(program, script), output.encode(), stderr, status)


def check_rows(program):
    for name, play in rows().items():
        expect(program, f"the row {name}", play.script, play.output)


CHECKS = [check_rows]
