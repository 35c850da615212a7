"""Number of processes that a tool runs at once."""

import os


def count():
    """Returns the number in `RT_JOBS`, which `rt ci` uses, too, or else the number of processors."""
    given = os.environ.get("RT_JOBS", "")
    if given.isdigit() and int(given):
        return int(given)
    return len(os.sched_getaffinity(0))
