#!/usr/bin/env python3
"""What rigid clusters and costs of bonds take by the library: CPU time of a call in one thread, and what it adds to the
peak memory of the process, its answer included. It needs numpy and Linux. Each study runs in a process of its own.

  tools/measure studies [--only WORD] [--runs 1] [--within SECONDS]
  tools/measure studies --families [--size 2000] [--only WORD] [--runs 1] [--within SECONDS]

The first prints the table of docs/COSTS.md. With --families it finds the rigid clusters of the families of
tools/lib/families.py of about so many spins, the slowest last, with the time of a ground state without its proof
beside it: a family is slow for clusters where the quotient is large. A run that takes two seconds is not repeated; one
that takes longer than --within (600 by default) is stopped.
"""
import argparse
import pathlib
import subprocess
import sys
import tempfile

import families
import stopwatch

# Costs are asked of so many bonds, which are spread evenly.
CHOSEN = 100


def square(rows, cols, law):
    """A drawn square lattice; of a law M the couplings are drawn from -M to M."""
    ising2d = stopwatch.package()
    drawn = ising2d.draw("uniform" if law.isdigit() else law, 1, "square", rows, cols)
    if not law.isdigit():
        return drawn
    most = int(law)
    return ising2d.Lattice("square", rows, cols, (drawn.couplings + 2**20) % (2 * most + 1) - most)


def ladder(length):
    """Two rows of spins with rails 1 and -1 and rungs 5: trees grow long."""
    rails = square(2, length, "pm").couplings[: 2 * (length - 1)].tolist()
    return stopwatch.package().Lattice("square", 2, length, rails + [5] * length)


def clusters(instance):
    return len(instance.clusters(progress=False).sizes)


def chosen_costs(instance):
    bonds = len(instance.couplings)
    return sum(instance.costs([k * bonds // CHOSEN for k in range(CHOSEN)], progress=False, threads=1))


def cost_bounds(instance):
    bounds = instance.cost_bounds(progress=False)
    return f"{bounds.low.sum()}..{bounds.high.sum()}"


STUDIES = {
    "clusters, 1 and -1, 32 x 32": (clusters, lambda: square(32, 32, "pm")),
    "clusters, 1 and -1, 45 x 45": (clusters, lambda: square(45, 45, "pm")),
    "clusters, 1 and -1, 100 x 100": (clusters, lambda: square(100, 100, "pm")),
    "clusters, 1 and -1, 316 x 316": (clusters, lambda: square(316, 316, "pm")),
    "clusters, uniform, 45 x 45": (clusters, lambda: square(45, 45, "uniform")),
    "clusters, -10 to 10, 316 x 316": (clusters, lambda: square(316, 316, "10")),
    "clusters, -10 to 10, 1000 x 1000": (clusters, lambda: square(1000, 1000, "10")),
    "clusters, rails 1 and -1, rungs 5, 2 x 1024": (clusters, lambda: ladder(1024)),
    "100 costs, 1 and -1, 100 x 100": (chosen_costs, lambda: square(100, 100, "pm")),
    "100 costs, uniform, 100 x 100": (chosen_costs, lambda: square(100, 100, "uniform")),
    "cost_bounds, 1 and -1, 100 x 100": (cost_bounds, lambda: square(100, 100, "pm")),
    "cost_bounds, uniform, 100 x 100": (cost_bounds, lambda: square(100, 100, "uniform")),
}


def least_of(runs, call):
    """What a call returns, and its least CPU seconds of so many."""
    found, seconds = stopwatch.timed(call)
    for _ in range(runs - 1):
        if seconds < 2:
            seconds = min(seconds, stopwatch.timed(call)[1])
    return found, seconds


def one(name, runs):
    """One study, of which a line is printed."""
    study, make = STUDIES[name]
    instance = make()
    instance.ends()
    before = stopwatch.begin_peak()
    found, seconds = least_of(int(runs), lambda: study(instance))
    added = (stopwatch.status_bytes("VmHWM") - before) / 1e6
    print(f"{name:44} {instance.n:8} {seconds:10.3f} {added:8.0f}  {found}", flush=True)


def family(path, runs):
    """The seconds of the clusters of an instance in a file, and of a ground state of it."""
    ising2d = stopwatch.package()
    try:
        instance = ising2d.read(pathlib.Path(path).read_text())
        print(*(least_of(int(runs), call)[1] for call in (lambda: clusters(instance), lambda: instance.ground(loops=False))))
    except ising2d.Refusal:
        return 7
    return 0


def family_times(made, folder, said):
    """The seconds of an instance, or a word in their place."""
    path = pathlib.Path(folder) / "instance"
    path.write_text(made.text("ground"))
    words = [sys.executable, __file__, "family", path, str(said.runs)]
    try:
        told = subprocess.run(words, stdout=subprocess.PIPE, text=True, timeout=said.within)
    except subprocess.TimeoutExpired:
        return "too long"
    if told.returncode:
        return "refused" if told.returncode == 7 else f"status {told.returncode}"
    return [float(word) for word in told.stdout.split()]


def table_of_families(said):
    rows, others = [], []
    with tempfile.TemporaryDirectory(prefix="studies-") as folder:
        for name, (words, make) in families.families().items():
            if said.only in name and "ground" in words:
                took = family_times(make(said.size), folder, said)
                (others if isinstance(took, str) else rows).append((name, took))
                print(".", end="", file=sys.stderr, flush=True)
    print(file=sys.stderr)
    print(f"{'family':44} {'clusters ms':>12} {'ground ms':>10} {'quotient':>9}")
    for name, took in others:
        print(f"{name:44} {took}")
    for name, (own, ground) in sorted(rows, key=lambda row: row[1][0]):
        print(f"{name:44} {1000 * own:12.1f} {1000 * ground:10.1f} {own / ground:9.1f}")
    return 1 if any(took != "refused" for _, took in others) else 0


def table(said):
    print(f"{'study':44} {'spins':>8} {'CPU s':>10} {'MB':>8}  answer", flush=True)
    bad = 0
    for name in STUDIES:
        if said.only in name:
            words = [sys.executable, __file__, "one", name, str(said.runs)]
            try:
                bad += subprocess.run(words, timeout=said.within).returncode != 0
            except subprocess.TimeoutExpired:
                bad += 1
                print(f"{name:44} longer than {said.within} s", flush=True)
    return 1 if bad else 0


def main():
    if sys.argv[1:2] == ["one"]:
        return one(*sys.argv[2:])
    if sys.argv[1:2] == ["family"]:
        return family(*sys.argv[2:])
    ask = argparse.ArgumentParser(description=__doc__, formatter_class=argparse.RawDescriptionHelpFormatter)
    ask.add_argument("--families", action="store_true")
    ask.add_argument("--size", type=int, default=2000)
    ask.add_argument("--only", default="")
    ask.add_argument("--runs", type=int, default=1)
    ask.add_argument("--within", type=int, default=600)
    said = ask.parse_args()
    return table_of_families(said) if said.families else table(said)


if __name__ == "__main__":
    sys.exit(main())
