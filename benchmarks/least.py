#!/usr/bin/env python3
"""least.py N COMMAND..: runs the command N times, and prints the least processor time of a run, user and system, in microseconds."""
import resource
import subprocess
import sys


def spent():
    usage = resource.getrusage(resource.RUSAGE_CHILDREN)
    return usage.ru_utime + usage.ru_stime


def run(command):
    before = spent()
    subprocess.run(command, stdout=subprocess.DEVNULL, check=True)
    return spent() - before


turns, command = int(sys.argv[1]), sys.argv[2:]
print(round(min(run(command) for turn in range(turns)) * 1_000_000))
