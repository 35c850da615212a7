"""Runs kernels of `wlb` with real brokers and tabs, and compares what they print with what is expected.

The checks stand in `process_tests`, by topic:

    scripts     scripts of kernels and tabs, refused ones too; queries; missing files; the folders of `examples/processes`
    counters    tabs that count, while tabs and brokers are killed, and the kernel is stopped and continued
    foreign     tabs and brokers that are not the program (`foreign_tab.py`, `owed_hello.py`)
    hostile     tabs that forge frames or send garbage, beside honest tabs
    order       posts do not overtake commands
    lanes       a broker whose one lane is busy, whose generation is spent, or whose lanes share the work
    faults      kernels that run short of descriptors or whose system calls fail (`faults.c`)

No process and no socket may be left.

The tool prints each difference, and nothing if there is none. The status is 1 if there is a difference. It needs `/proc` and a C
compiler `cc`.
"""

from checks import main_of
from process_tests import counters, faults, foreign, hostile, lanes, order, scripts

TOPICS = [scripts, counters, foreign, hostile, order, lanes, faults]

if __name__ == "__main__":
    main_of(__doc__, *[check for topic in TOPICS for check in topic.CHECKS])
