#!/usr/bin/env python3
"""The program on small lattices, and how much of a run is the start of the process.

  tools/measure start [PROGRAM] [SIDE ..]

PROGRAM is built/ising2d by default. CPU time of `ground`, of whole processes. The start is a run on one spin, which
the program reads and answers in some thousand instructions. A row for each lattice and side: milliseconds, the
least and the median of the runs, and the share of the start in the least. All instances take turns, so that
each has the same other work beside it.
"""
import os
import statistics
import subprocess
import sys
import tempfile

import stopwatch

SIDES, RUNS = (16, 32, 45), 60
LATTICES = (("square", "pm"), ("square", "uniform"), ("triangular", "pm"), ("triangular", "uniform"),
            ("cylinder", "uniform"), ("hexagonal", "pm"))
ONE_SPIN = b"square,1,1\nend\n"


class Instance:
    """An instance, and what the runs on it have taken."""

    def __init__(self, name, text):
        self.name, self.seconds = name, []
        self.file = tempfile.TemporaryFile()
        self.file.write(text)

    def run(self, program, nowhere):
        """One run, started without any Python in the child, whose time would count."""
        self.file.seek(0)
        files = [(os.POSIX_SPAWN_DUP2, self.file.fileno(), 0), (os.POSIX_SPAWN_DUP2, nowhere, 1)]
        child = os.posix_spawn(program, [program, "ground"], os.environ, file_actions=files)
        _, status, used = os.wait4(child, 0)
        if status != 0:
            sys.exit(f"start: {program} ends with {status} on {self.name}")
        self.seconds.append(used.ru_utime + used.ru_stime)


def drawn(program, kind, law, side):
    """A lattice with the couplings of a law."""
    words = [program, "gen", law, "7", kind, str(side), str(side)]
    text = subprocess.run(words, stdout=subprocess.PIPE, check=True).stdout
    return Instance(f"{kind} {law} {side}x{side}", text)


def main(words):
    program = words.pop(0) if words and not words[0].isdigit() else str(stopwatch.PROGRAM)
    start = Instance("one spin", ONE_SPIN)
    sides = [int(word) for word in words] or SIDES
    instances = [start] + [drawn(program, kind, law, side) for side in sides for kind, law in LATTICES]
    nowhere = os.open(os.devnull, os.O_WRONLY)
    for _ in range(RUNS):
        for instance in instances:
            instance.run(program, nowhere)
    print(f"{'instance':26}{'least ms':>9}{'median ms':>11}{'start':>7}")
    for it in instances:
        least, share = min(it.seconds), min(start.seconds) / min(it.seconds)
        print(f"{it.name:26}{1000 * least:9.2f}{1000 * statistics.median(it.seconds):11.2f}{share:7.0%}")


if __name__ == "__main__":
    main(sys.argv[1:])
