#!/usr/bin/env python3
"""Large lattices: what a ground state with its nest takes in CPU time and in memory, and each proof
judged by plain arithmetic in numpy. It needs numpy and Linux.

  tools/measure large [SIDE ..]    a table of square and triangular lattices of these sides

MB is what a call of `ground` adds to the peak of the process, with the tables of the lattice that it makes (its
bonds and darts) and its answer. `own` is what the library adds beside the arrays that it is passed, those tables and
the couplings, and those that the caller gets back, the spins and the nest.
"""
import sys

import stopwatch

ising2d = stopwatch.package()
sys.path.insert(0, str(stopwatch.TOP / "bindings" / "tests"))
import nest_judge

SIDES = (32, 100, 316, 1000)
ROWS = (("square", "pm"), ("square", "uniform"), ("triangular", "pm"), ("triangular", "uniform"))


def one(kind, law, side):
    """One lattice, of which a line is printed."""
    given = ising2d.draw(law, 1, kind, side, side)
    before = stopwatch.begin_peak()
    _, making = stopwatch.timed(given.ends)
    most, passed = stopwatch.status_bytes("VmHWM"), stopwatch.begin_peak()
    found, solving = stopwatch.timed(lambda: given.ground(nest=True))
    most, own = max(most, stopwatch.status_bytes("VmHWM")), stopwatch.status_bytes("VmHWM") - passed
    own -= sum(array.nbytes for array in (found.spins, *found.nest))
    verdict, judging = stopwatch.timed(found.check)
    table = nest_judge.Table(kind, side, side)
    wrong = nest_judge.failures(table, given.couplings, found.energy, found.spins, found.nest)
    print(
        f"{kind:10} {law:8} {side * side:8} {1000 * (making + solving):9.1f} {1000 * judging:8.1f} "
        f"{(most - before) / 1e6:7.0f} {own / 1e6:7.0f} {len(found.nest.radii):8}  "
        f"{'yes' if verdict else 'NO'}  {'yes' if not wrong else 'NO: ' + ', '.join(wrong)}",
        flush=True,
    )
    return bool(verdict) and not wrong


def main():
    if sys.argv[1:2] == ["one"]:
        kind, law, side = sys.argv[2:]
        return 0 if one(kind, law, int(side)) else 1
    print("kind       law         spins  solve ms  judge ms    MB     own  regions  library's judge, numpy's", flush=True)
    bad = 0
    for side in map(int, sys.argv[1:] or SIDES):
        for kind, law in ROWS:
            # Each in a process of its own, since a peak is that of the process.
            bad += stopwatch.run_here(__file__, "one", kind, law, side) != 0
    return 1 if bad else 0


if __name__ == "__main__":
    sys.exit(main())
