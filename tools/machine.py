"""How many proofs a machine has room for at a time."""
import os
import re

# What a proof may take, in bytes.
PROOF = 3 * 10**9


def available(text):
    """The memory that is free, in bytes, by the text of /proc/meminfo."""
    return 1024 * int(re.search(r"^MemAvailable:\s+(\d+) kB$", text, re.M)[1])


def room(processors, memory):
    """One proof for each processor, as far as there is memory, and at least one."""
    return max(1, min(processors, memory // PROOF))


def at_once():
    with open("/proc/meminfo", encoding="ascii") as file:
        return room(len(os.sched_getaffinity(0)), available(file.read()))
