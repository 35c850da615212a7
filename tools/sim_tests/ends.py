"""Ends of a run of the sim: lines that are refused for their form, and the last line of a script."""

from sim_tests.play import expect

DOWN = "already down\n"


def is_refused(program, script, number, output=""):
    """Runs a script that ends at a line of another form."""
    expect(program, f"the script {script[-60:]!r}", script, output, [f"wlb: line {number}"], 1)


def check_other_lines(program):
    """A line of another form ends the run, behind the output of the lines before it."""
    for script, number, output in [
        ("stop\n# a comment\n\nstopp\nstop\n", 4, DOWN),
        ("stop \nstop\n", 1, ""),
        ("stop\r\n", 1, ""),
        ("stop\nstart 0", 2, DOWN),
        ("stop\nopen2 1 https://a.test/\n", 2, DOWN),
        ("ask 1 shared %FF\n", 1, ""),
    ]:
        is_refused(program, script, number, output)


# Lines that nearly have the form of a line.
OTHER_FORMS = """\
show_
_show
Show
shows
hello
hello__1
hello_0
hello_01
hello_65536
hello_+1
hello_1_2
kill_x
start_-_1
start_1_-
open_1
open_1_
ask_1_both_a
ask_1_shared
ask_1_shared_a_b
ask_1_shared_%FF
abort_1_-1
deliver_1
deliver_m
deliver_M1
deliver_m01
post_1_0
"""


def check_other_forms(program):
    lines = [line.replace("_", " ") for line in OTHER_FORMS.splitlines()]
    for line in [" ", *lines, "show\r"]:
        is_refused(program, f"{line}\n", 1)
    is_refused(program, b"open 1 \xff\n", 1)


def check_bodies(program):
    """A forged body is one that a tab sends."""
    for digits in ["", " ", " %", " 01", " 011000000001", " 02030000000001610000", " 03020000000100000000000000010000"]:
        is_refused(program, f"forge 1{digits}\n", 1)
    # A missing digit, a digit in lower case, a byte too many, and a missing byte, behind a body of a tab.
    whole = "0103000000000161"
    is_refused(program, f"forge 1 {whole}0000\nforge 1 {whole}000\n", 2, "no tab\n")
    for digits in [f"{whole}000a", f"{whole}000000", f"{whole}00"]:
        is_refused(program, f"forge 1 {digits}\n", 1)


def check_last_line(program):
    """The last line may lack its line feed."""
    for script in ["stop\nshow\n", "stop\nshow"]:
        expect(program, f"the script {script!r}", script, "already down\nnothing held\n")
    expect(program, "no line", "", "")


def check_long_lines(program):
    """A line has at most 65,536 bytes."""
    longest = "#" * 65_536
    expect(program, "the longest line", f"stop\n{longest}", DOWN)
    is_refused(program, f"stop\n{longest}#\nstop\n", 2, DOWN)


CHECKS = [check_other_lines, check_other_forms, check_bodies, check_last_line, check_long_lines]
