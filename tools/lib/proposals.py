#!/usr/bin/env python3
"""On how many drawn lattices and graphs the judges accept the proposal, and on how many the retry.
Outside the gate.

  tools/measure proposals [--count 20000] [--webs 100000]
  tools/measure proposals --large [--sides 1000x100,100x316]

Without `--large` it runs the tests `drawn_lattices` and `drawn_webs` of crates/sg_trials in a copy of the
repository with more trials; it needs `rt`. They make the proposal and the retry, with cuts and with nests, and
stop at the first that a judge rejects; each graph is also compared with the matching. Many of them have ties:
couplings 1 and -1, zeros, equal weights.

With `--large` built/libising2d.so (bindings/build) solves the given numbers of lattices of the given sides,
alternating squares, triangular lattices and cylinders of four laws. gdb counts how often the judge of nests is
called, twice if the first proposal was rejected, and how often terminals are matched, which happens if both
were. It needs gdb, and no numpy.

The exit status is 0 if each proposal was accepted.
"""
import argparse
import array
import pathlib
import random
import shutil
import subprocess
import sys
import tempfile

import hits
import model
import stopwatch
from stopwatch import LIBRARY, TOP

# A round has a lattice of each shape and law.
ROUND, ROUNDS, WEBS = 50, "const ROUNDS: u32 = 4;", "for trial in 0..150u32 {"
# What the names of the functions begin with that are counted.
JUDGE, MATCHING = "sg_nest::judge::Judge::proves", "sg_tjoin::matched::matched_join"

KINDS = ("square", "triangular", "cylinder")
LAWS = ("one size", "with zeros", "with ties", "drawn")


def with_trials(path, loop, few, many):
    """Has the loop of a test run so many times."""
    text = path.read_text()
    if text.count(loop) != 1:
        sys.exit(f"a test of {path.name} is not as it was")
    path.write_text(text.replace(loop, loop.replace(few, many)))


def small(said):
    """The tests of sg_trials with more trials."""
    rounds = max(1, said.count // ROUND)
    with tempfile.TemporaryDirectory(prefix="proposals-") as room:
        copy = pathlib.Path(room) / "repo"
        copy.mkdir()
        for name in ("crates.txt", "HANDLES"):
            shutil.copy(TOP / name, copy)
        shutil.copytree(TOP / "crates", copy / "crates", ignore=shutil.ignore_patterns("out"))
        crate = copy / "crates" / "sg_trials"
        with_trials(crate / "src" / "lattices.rt", ROUNDS, "4", str(rounds))
        with_trials(crate / "src" / "webs.rt", WEBS, "150", str(said.webs))
        accepted = all(subprocess.run(["rt", "test", "--", test], cwd=crate).returncode == 0
                       for test in ("drawn_lattices", "drawn_webs"))
    what = f"{ROUND * rounds} lattices and {said.webs} webs, each asked for two proposals: "
    print(what + ("all were accepted" if accepted else "NOT all were accepted"))
    return 0 if accepted else 1


def solve(count, side):
    """Solves so many lattices; this is the process that gdb looks at."""
    ising2d = stopwatch.package()
    for trial in range(count):
        kind, law = KINDS[trial % len(KINDS)], LAWS[trial // len(KINDS) % len(LAWS)]
        coupling = model.LAWS[law](random.Random(trial))
        couplings = array.array("q", map(coupling, range(model.bond_count(kind, side, side))))
        assert ising2d.Lattice(kind, side, side, couplings).ground(nest=True).nest is not None
    return 0


def names():
    """The functions that are counted, by the names that the library has for them."""
    found = [hits.functions(LIBRARY, start) for start in (JUDGE, MATCHING)]
    for start, several in zip((JUDGE, MATCHING), found):
        if len(several) != 1:
            sys.exit(f"the library names {len(several)} functions {start}")
    return [several[0] for several in found]


def counted(count, side):
    """How often the judge was asked, and how often terminals were matched."""
    entered = hits.counted(names(), [sys.executable, __file__, "solve", count, side])
    if entered is None:
        sys.exit("the run did not end, or there is no gdb")
    return entered


def large(said):
    """Large lattices by the library."""
    good = True
    for part in said.sides.split(","):
        count, side = map(int, part.split("x"))
        judged, matched = counted(count, side)
        again = judged - count
        print(f"{count} lattices of {side} by {side}: {count - again} accepted at first, "
              f"{again - matched} once more, {matched} matched", flush=True)
        good = good and again == matched == 0
    return 0 if good else 1


def main():
    if sys.argv[1:2] == ["solve"]:
        return solve(int(sys.argv[2]), int(sys.argv[3]))
    ask = argparse.ArgumentParser()
    ask.add_argument("--count", type=int, default=20000)
    ask.add_argument("--webs", type=int, default=100000)
    ask.add_argument("--large", action="store_true")
    ask.add_argument("--sides", default="1000x100,100x316")
    said = ask.parse_args()
    return large(said) if said.large else small(said)


sys.exit(main())
