"""What the benchmarks share: how long a program takes, and how much memory."""

import resource
import subprocess
import sys
import time


def most_resident(number, until):
    """The most memory that was ever resident, in KB: asked of the system again and again."""
    most = 0
    while until() is None:
        try:
            with open(f"/proc/{number}/status") as status:
                most = max([most, *(int(line.split()[1]) for line in status if line.startswith("VmHWM"))])
        except OSError:
            break
        time.sleep(0.002)
    return most


def measure(program, words, config, given, written):
    """The processor seconds that the program takes, user and system, and the most memory in KB."""
    with open(given, "rb") as reader, open(written, "wb") as writer:
        before = resource.getrusage(resource.RUSAGE_CHILDREN)
        child = subprocess.Popen([program, *words, "--config", config], stdin=reader, stdout=writer)
        most = most_resident(child.pid, child.poll)
        after = resource.getrusage(resource.RUSAGE_CHILDREN)
    if child.returncode:
        sys.exit(f"{program} {words[0]} ended with status {child.returncode}")
    return after.ru_utime + after.ru_stime - before.ru_utime - before.ru_stime, most
