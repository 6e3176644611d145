#!/usr/bin/env python3
"""time_profile.py DEPTH SITES FILE: the median processor seconds of three runs of the script's profile over a trace."""

import sys
import time

from profile import profile

depth, sites, name = int(sys.argv[1]), int(sys.argv[2]), sys.argv[3]
with open(name, "rb") as file:
    trace = file.read()


def seconds():
    """One run."""
    begun = time.thread_time()
    profile(trace, depth, sites)
    return time.thread_time() - begun


print(f"{sorted(seconds() for _ in range(3))[1]:.9f}")
