"""What the machine has for a build, and how long proving takes on it."""

import os

from sources import lines_of

# The bytes that one process of a check takes.
ROOM = 2_000_000_000
# How many lines one processor proves a minute, as measured for a first build (docs/PROOFS.md, "Times").
LINES_A_MINUTE = 600


def processors():
    """How many processors there are."""
    return len(os.sched_getaffinity(0))


def most_processes():
    """How many processes of a check memory is free for."""
    try:
        with open("/proc/meminfo", encoding="ascii") as file:
            for line in file:
                if line.startswith("MemAvailable:"):
                    return max(1, int(line.split()[1]) * 1024 // ROOM)
    except OSError:
        pass
    return processors()


def lanes():
    """How many checks run side by side."""
    return min(processors(), most_processes())


def minutes_to_prove(names):
    """In how many minutes these crates are proved from nothing."""
    return sum(lines_of(it) for it in names) // (LINES_A_MINUTE * lanes()) + 2
