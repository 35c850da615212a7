"""Plays scripts on the sim of `wlb`, and compares what it prints with what is expected.

The checks stand in `sim_tests`, by topic:

    play        rows of scripts, each line with its output (`sim_tests/rows`)
    limits      scripts that reach a limit and exceed it by one, and long scripts
    parts       tabs that report in parts
    ends        refused lines
    stops       stops and deaths behind each line of rows
    random_events   no two locks that are held conflict after random events

The tool prints each difference, and nothing if there is none. The status is 1 if there is a difference.
"""

from checks import main_of
from sim_tests import ends, limits, parts, play, random_events, stops

TOPICS = [play, limits, parts, ends, stops, random_events]

if __name__ == "__main__":
    main_of(__doc__, *[check for topic in TOPICS for check in topic.CHECKS])
