#!/usr/bin/env python3
"""The CPU time of functions of the built library, from C and from Python: the numbers of
docs/COSTS.md, "The library". Squares of 32 by 32 of two laws, and of four spins; medians.

  tools/measure calls
"""
import os
import pathlib
import subprocess
import sys
import tempfile

import stopwatch

LAWS = ("pm", "uniform")


def from_c(text):
    """The program call_times.c, over the archive."""
    source = pathlib.Path(__file__).with_suffix(".c")
    with tempfile.TemporaryDirectory(prefix="times-") as room:
        made, archive = pathlib.Path(room) / "times", stopwatch.LIBRARY.with_suffix(".a")
        words = [os.environ.get("CC", "cc"), "-O2", "-Wall", "-Wextra", "-o", made]
        subprocess.run([*words, "-I", stopwatch.TOP / "bindings" / "c", source, archive], check=True)
        subprocess.run([made], input=text.encode(), check=True)


def from_python(ising2d, lattice):
    found = lattice.ground()
    thousand = lambda: [ising2d.ground("square", 2, 2, [3, 4, 2, -5]) for _ in range(1000)]
    rows = [
        ("ms", "ground from Python, loops not looked at", lattice.ground),
        ("ms", "the same, and all loops unpacked", lambda: list(lattice.ground().loops)),
        ("ms", "check from Python", found.check),
        # A thousand calls in milliseconds are one in microseconds.
        ("microseconds", "ground of four spins from Python", thousand),
    ]
    for seconds, (unit, name, _) in zip(stopwatch.medians([call for _, _, call in rows], least=60), rows):
        print(f"{1000 * seconds:8.3f} {unit}  {name}", flush=True)


def main():
    ising2d = stopwatch.package()
    for law in LAWS:
        print(f"couplings of the law {law}:", flush=True)
        text = ising2d.run(["gen", law, "1", "square", "32", "32"]).text
        from_c(text)
        from_python(ising2d, ising2d.read(text))


if __name__ == "__main__":
    sys.exit(main())
