#!/usr/bin/env python3
"""What the package adds to the library's own call for a ground state: CPU time and peak memory, each in
a process of its own. It needs numpy.

  tools/measure overhead [SIDE ..]

The export is called with arrays that are ready, and has room for the same proof. A row for each law
and side: milliseconds of the export and of `ground`, the second over the first, and the bytes a spin by which
the peak memory of `ground` is above that of the export.
"""

import ctypes
import sys

import stopwatch

ising2d = stopwatch.package()
from ising2d import _ffi
from ising2d._arrays import buffer, pointer_to, zeros

SIDES, LAWS = (32, 100, 316, 1000), ("pm", "uniform")


class Export:
    """A call of the export that finds a ground state, with arrays that are ready, and kept."""

    def __init__(self, name, lattice, answer, kinds):
        self.numbers, self.line, self.answer = lattice._numbers_within(_ffi.MOST_SPINS), _ffi.Line(), answer
        self.rooms = [zeros("int8", lattice.n), *(buffer(kind, count) for kind, count in kinds)]
        given = [part for values in self.numbers[1:] for part in pointer_to(values)]
        room = [part for values in self.rooms for part in pointer_to(values)]
        self.words = [self.numbers.n, *given, ctypes.byref(answer), *room, *self.line.arguments()]
        self.call = getattr(_ffi.library(), name)

    def __call__(self):
        assert self.call(*self.words) == 0


def nest_call(lattice):
    """The call that finds a nest."""
    faces = len(lattice.couplings) + lattice.n
    kinds = ("uint32", 2 * faces), ("uint64", 2 * faces), ("uint32", faces), ("uint64", faces)
    return Export("ising2d_c_nest", lattice, _ffi.NestNumbers(), kinds)


def loops_call(lattice):
    """The call that finds loops."""
    bonds = len(lattice.couplings)
    kinds = ("int64", 5 * bonds // 2 + 1), ("uint64", 5 * bonds // 2 + 2), ("uint32", 128 * bonds + 64)
    return Export("ising2d_c_ground", lattice, _ffi.GroundNumbers(), kinds)


def export_of(lattice):
    """The call that `ground` makes of a lattice of this size."""
    return nest_call(lattice) if lattice.n > _ffi.PROGRAM_SPINS else loops_call(lattice)


def lattice_of(law, side):
    """A drawn lattice, whose tables are made."""
    lattice = ising2d.draw(law, 1, "square", side, side)
    lattice.ends()
    return lattice


def one(what, law, side):
    """One measurement, which is printed: of the times of both, or of the peak of one."""
    lattice = lattice_of(law, int(side))
    call = export_of(lattice)
    if what == "times":
        print(*stopwatch.medians([call, lattice.ground]))
        return
    # The export has arrays of its own; the answer of `ground` is kept, as callers keep it.
    found = call() if what == "export" else lattice.ground()
    print(stopwatch.peak())
    del found


def main():
    if sys.argv[1:2] and not sys.argv[1].isdigit():
        return one(*sys.argv[1:])
    print(f"{'law':8} {'spins':>8} {'export ms':>10} {'ground ms':>10} {'ratio':>6} {'bytes a spin':>13}")
    for side in map(int, sys.argv[1:] or SIDES):
        for law in LAWS:
            export, ground = stopwatch.asked(__file__, "times", law, side)
            more = stopwatch.asked(__file__, "ground", law, side)[0] - stopwatch.asked(__file__, "export", law, side)[0]
            row = f"{1000 * export:10.3f} {1000 * ground:10.3f} {ground / export:6.3f} {more / side**2:13.1f}"
            print(f"{law:8} {side * side:8} {row}", flush=True)


if __name__ == "__main__":
    sys.exit(main())
