#!/usr/bin/env python3
"""Lists the functions of a crate that took longest in its last check, in seconds, with the longest steps of each.

  tools/measure functions [--most N] CRATE..

A check writes files for each function into out/incremental of the crate (`rt check`, `tools/build --keep`), and the
time since the file before it is that of a step. `Lts`, the translation of a body, grows with its exits times the lists
that it owns there; `Proof` is the search for goals without an answer. Other load makes the times longer, so the size
of the translation is told too: it takes some two seconds for each MB. Work that was kept has the times of the check
that did it, so remove out first for the times of a whole check.
"""
import argparse
import collections
import pathlib
import re
import sys

TOP = pathlib.Path(__file__).resolve().parents[2]
# So many seconds without a file, and another check began.
PAUSE = 60
STEPS = "Kinds Named Layout Lts Symbol Statement Reads Tie Proof Met Mir Code Given Answers Invariants Goals Key".split()
ENDING = re.compile(rf"\.({'|'.join(STEPS)})([.-].*)?$")


def kept_files(crate):
    """The time, name and size of each file of the last check of a crate, in the order of the times."""
    found = (TOP / "crates" / crate).glob("out/incremental/*/*.oantt")
    return sorted((file.stat().st_mtime, file.stem, file.stat().st_size) for file in found)


def steps_of(crate):
    """The seconds of each step of each function, and the bytes of its translation."""
    steps, sizes = collections.defaultdict(collections.Counter), collections.Counter()
    before = None
    for time, name, size in kept_files(crate):
        step = ENDING.search(name)
        step = step[1] if step else "other"
        function = ENDING.sub("", name).replace("-specs.contracts.", "-proofs.").partition("-proofs.")[2] or name
        sizes[function] += size * (step == "Lts")
        if before is not None and time - before < PAUSE:
            steps[function][step] += time - before
        before = time
    return steps, sizes


def main(words):
    parser = argparse.ArgumentParser(prog="tools/measure functions", description=__doc__.partition("\n")[0])
    parser.add_argument("crates", nargs="+", metavar="CRATE")
    parser.add_argument("--most", type=int, default=20, metavar="N")
    asked = parser.parse_args(words)
    for crate in asked.crates:
        steps, sizes = steps_of(crate)
        print(f"{crate}: {sum(it.total() for it in steps.values()):.0f} s")
        for function in sorted(steps, key=lambda it: -steps[it].total())[: asked.most]:
            longest = ", ".join(f"{step} {seconds:.1f}" for step, seconds in steps[function].most_common(3))
            print(f"{steps[function].total():8.1f}  {function} ({longest}; {sizes[function] / 1e6:.1f} MB)")
    return 0


if __name__ == "__main__":
    sys.exit(main(sys.argv[1:]))
