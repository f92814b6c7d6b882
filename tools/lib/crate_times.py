#!/usr/bin/env python3
"""Measures the CPU time of the crates: their proofs, their tests with the proofs of these, and their mutants.

  tools/measure crates [--write]           runs the gate, and prints a row a crate, in minutes
  tools/measure crates --build [--write]   builds the program as ./ising2d does, and prints the seconds of each proof

Twice a second it looks at the processes below the command, and adds the CPU time of each to the crate that its
words name. What rt has kept of earlier runs on this machine is not done again, so the times are complete only if
nothing of these files has been proved before. With --write the rows go into docs/times.csv, or the seconds into
tools/lib/seconds, from which tools/build predicts the time left. Other load makes the times longer, by a quarter
and more. The exit status is that of the command.
"""
import collections
import os
import pathlib
import subprocess
import sys
import tempfile
import threading

from processes import crate_of, fields_of, is_below, running

TOP = pathlib.Path(__file__).resolve().parents[2]
SECONDS = TOP / "tools" / "lib" / "seconds"
MINUTES = TOP / "docs" / "times.csv"
KINDS = ("proof", "tests", "mutants")
# How often it looks, in seconds.
EVERY = 0.5
TICKS = os.sysconf("SC_CLK_TCK")


def listed():
    """The crates of crates.txt."""
    heads = (line.partition("#")[0].partition(":") for line in (TOP / "crates.txt").read_text(encoding="utf-8").splitlines())
    return [head.split()[0] for head, colon, _ in heads if colon]


def kind_of(process, words):
    """What a check is for: rt tries a mutant in a folder of its own."""
    if os.readlink(process / "cwd").startswith(os.path.join(tempfile.gettempdir(), "rt-edit-")):
        return KINDS[2]
    return KINDS[1] if "--test" in words else KINDS[0]


class Meter(threading.Thread):
    """Adds up the CPU time of the processes below a root, while it runs."""

    def __init__(self, root):
        super().__init__(daemon=True)
        self.root, self.over, self.spent = root, threading.Event(), {}

    def run(self):
        while not self.over.wait(EVERY):
            for process in running():
                try:
                    self.look(process)
                except (OSError, ValueError, IndexError):
                    # It has ended meanwhile.
                    continue

    def look(self, process):
        crate, words = crate_of(process)
        # The process that reads all sources before the first proof belongs to no crate.
        if crate is None or "--only" in words or not is_below(int(process.name), self.root):
            return
        fields = fields_of(process.name)
        # Process numbers are reused, but not with the same start time.
        name = process.name, fields[19]
        if name not in self.spent:
            self.spent[name] = [crate, kind_of(process, words), 0.0]
        self.spent[name][2] = (int(fields[11]) + int(fields[12])) / TICKS

    def sums(self):
        """The seconds by crate and kind."""
        found = collections.Counter()
        for crate, kind, seconds in self.spent.values():
            found[crate, kind] += seconds
        return found


def rows_of(sums):
    """The rows of the table, in minutes, and those of all crates."""
    rows = [",".join(["crate", *KINDS])]
    for crate in listed():
        rows.append(",".join([crate, *(f"{sums[crate, kind] / 60:.1f}" for kind in KINDS)]))
    whole = [sum(sums[crate, kind] for crate in listed()) / 60 for kind in KINDS]
    return [*rows, ",".join(["all", *(f"{it:.0f}" for it in whole)])]


def write_seconds(sums):
    """Puts the seconds of the proofs into the file, and keeps those of other crates."""
    lines = SECONDS.read_text(encoding="utf-8").splitlines()
    head = [it for it in lines if it.startswith("#")]
    table = dict(it.split() for it in lines if it and not it.startswith("#"))
    table.update({crate: f"{sums[crate, KINDS[0]]:.0f}" for crate in listed() if sums[crate, KINDS[0]] >= 1})
    rows = [f"{crate} {table[crate]}" for crate in listed() if crate in table]
    SECONDS.write_text("\n".join([*head, *rows]) + "\n", encoding="utf-8")


def main(words):
    if not set(words) <= {"--write", "--build"}:
        print(__doc__, end="", file=sys.stderr)
        return 2
    is_build = "--build" in words
    with subprocess.Popen([TOP / "tools" / "build", "ising2d"] if is_build else [TOP / "gate"], cwd=TOP) as command:
        meter = Meter(command.pid)
        meter.start()
        try:
            command.wait()
        except KeyboardInterrupt:
            # The command has been interrupted too; what it took so far is printed.
            command.wait()
        meter.over.set()
    sums = meter.sums()
    if is_build:
        print("\n".join(f"{crate} {sums[crate, KINDS[0]]:.0f}" for crate in listed()))
    else:
        print("\n".join(rows_of(sums)))
    if "--write" in words:
        write_seconds(sums) if is_build else MINUTES.write_text("\n".join(rows_of(sums)) + "\n", encoding="utf-8")
    return command.returncode


if __name__ == "__main__":
    sys.exit(main(sys.argv[1:]))
