#!/usr/bin/env python3
"""Runs the built program on the families of tools/lib/families.py: CPU time, peak memory, and whether the
proposal was accepted. Outside the gate.

  tools/measure worst [--program built/ising2d] [--only WORD] [--commands ground,tjoin,postman]
              [--size 2048] [--runs 3] [--within SECONDS]
  tools/measure worst --library [--size 20000] [--only WORD] [--runs 3] [--within SECONDS]
  tools/measure worst --search MINUTES [--commands ground,tjoin] [--seed 1] [--nodes 384] [--size 2048]
  tools/measure worst --search MINUTES --library [--seed 1] [--nodes 4000] [--size 20000]
  tools/measure worst --write FOLDER [--size 2048]

It prints a line for each family and command, the slowest last. Times are the least of some runs and include
the start of the program. A peak is at least that of this process, some 20 MB. The exit status is 0 if each run
ended with an answer within the CPU seconds given (60 by default).

Whether a proposal was accepted is observed from outside: by gdb, if it is installed and the program names its
functions, since a run that enters the matching was not accepted; else by the peak, since the matching has
tables of 12 k n + 8 k^2 bytes for k terminals among n nodes. `?` means that neither tells.

With `--library` built/libising2d.so (bindings/build) solves the families of instances, of up to 2^22 spins: one
ground state with its nest; the time is the CPU time of the call. Instances whose couplings sum to more than 2^44
at that size are left out.

A search makes patterns, runs them at the given number of nodes, and climbs towards more time for each node and
edge end; its results are run at the full size. Each line that it prints is a family that can be put into
tools/lib/families.py as it is. With `--library` it searches strips alone, by calls of the library.
"""
import argparse
import functools
import pathlib
import random
import subprocess
import sys
import tempfile
import time

import families
import hits
import stopwatch

# What the names of the matching's functions hold, whichever of them the compiler has left.
MATCHING = ("sg_tjoin::matched", "sg_tjoin::matching", "sg_match::")


def best_of(program, command, path, runs, within):
    """A run on a file with the least time of some, within so many CPU seconds each."""
    with open(path) as source:
        return stopwatch.quickest(runs, lambda: stopwatch.run([program, command], source, within=within))


@functools.cache
def matching_names(program):
    """The functions of the matching that the program names."""
    return hits.functions(program, MATCHING)


def enters_matching(program, command, path, within):
    """Whether a run enters the matching, as gdb sees it; None where it does not."""
    entered = hits.counted(matching_names(program), [program, command], path, 10 * within, is_exact=True)
    return None if entered is None else any(entered)


def nodes_and_terminals(command, path):
    """Of a graph in a file."""
    nodes, degrees, terminals = 0, {}, 0
    with open(path) as lines:
        for line in lines:
            word, *numbers = line.rstrip("\n").split(",")
            if word == "graph":
                nodes = int(numbers[0])
            elif word == "edge":
                for end in numbers[:2]:
                    degrees[end] = degrees.get(end, 0) + 1
            elif word == "term":
                terminals = len(numbers)
    return nodes, sum(d % 2 for d in degrees.values()) if command == "postman" else terminals


def accepted(program, command, path, peak, within):
    """`yes`, `no` or `?`."""
    enters = enters_matching(program, command, path, within)
    if enters is not None:
        return "no" if enters else "yes"
    if command == "ground":
        return "?"
    n, k = nodes_and_terminals(command, path)
    return "yes" if peak < 12 * k * n + 8 * k * k else "?"


def write(folder, size, commands, only):
    """Each family as a file, named by its command and its number."""
    for number, (name, (words, make)) in enumerate(families.families().items()):
        if only not in name:
            continue
        made = make(size)
        for command in words:
            if command in commands:
                (pathlib.Path(folder) / f"{number:03} {command}").write_text(made.text(command))


def written(folder, said):
    """The files of the families, in their order. Another process makes them, so that this one stays
    small."""
    words = ["--write", folder, "--size", str(said.size), "--commands", said.commands, "--only", said.only]
    subprocess.run([sys.executable, __file__] + words, check=True)
    return sorted(pathlib.Path(folder).iterdir())


def table(said):
    names, rows = list(families.families()), []
    with tempfile.TemporaryDirectory(prefix="worst-") as folder:
        for path in written(folder, said):
            number, command = path.name.split()
            least = best_of(said.program, command, path, said.runs, said.within)
            good = least.status == 0
            told = accepted(said.program, command, path, least.peak, said.within) if good else "?"
            rows.append((least.seconds, names[int(number)], command, least, told))
            print(".", end="", file=sys.stderr, flush=True)
    print(file=sys.stderr)
    print(f"{'family':44} {'command':8} {'ms':>9} {'MB':>5}  accepted")
    for seconds, name, command, least, told in sorted(rows, key=lambda row: row[0]):
        ends = told if least.status == 0 else "too long" if least.status is None else f"status {least.status}"
        print(f"{name:44} {command:8} {1000 * seconds:9.1f} {least.peak / 1e6:5.0f}  {ends}")
    return 0 if all(row[3].status == 0 for row in rows) else 1


# The library.

def caller(path, runs):
    """Reads an instance, solves it so often, and prints the least CPU seconds of a call."""
    ising2d = stopwatch.package()
    least = float("inf")
    try:
        instance = ising2d.read(pathlib.Path(path).read_text())
        for _ in range(int(runs)):
            least = min(least, stopwatch.timed(lambda: instance.ground(nest=True))[1])
            if least > 2:
                break
    except ising2d.Refusal:
        return 7
    print(least)
    return 0


def library_seconds(path, said):
    """The CPU seconds of a call of the library; a word in their place where there are none."""
    words = [sys.executable, __file__, "caller", path, str(said.runs)]
    try:
        told = subprocess.run(words, stdout=subprocess.PIPE, timeout=20 * said.within)
    except subprocess.TimeoutExpired:
        return "too long"
    if told.returncode:
        return "refused" if told.returncode == 7 else f"status {told.returncode}"
    return float(told.stdout)


def library(said):
    """The families of instances by the library, the slowest last."""
    rows = []
    with tempfile.TemporaryDirectory(prefix="worst-") as folder:
        for number, (name, (words, make)) in enumerate(families.families().items()):
            if said.only in name and "ground" in words:
                path = pathlib.Path(folder) / str(number)
                path.write_text(make(said.size).text("ground"))
                rows.append((name, library_seconds(path, said)))
                path.unlink()
                print(".", end="", file=sys.stderr, flush=True)
    print(file=sys.stderr)
    timed = sorted((row for row in rows if isinstance(row[1], float)), key=lambda row: row[1])
    for name, ends in [row for row in rows if not isinstance(row[1], float)]:
        print(f"{name:44} {ends}")
    for name, seconds in timed:
        print(f"{name:44} {1000 * seconds:9.1f} ms")
    return 0 if all(ends == "refused" or isinstance(ends, float) and ends < said.within for _, ends in rows) else 1


# The search.

def gene(draw):
    """A law of weights with its two numbers."""
    return (draw.randrange(9), draw.randrange(4) if draw.random() < 0.5 else draw.randrange(50),
            1 + draw.randrange(6) if draw.random() < 0.5 else 1)


class Graphs:
    """Patterns of graphs, for `tjoin`."""
    command = "tjoin"

    def __init__(self, draw):
        self.draw = draw

    def edge(self):
        return (self.draw.randrange(4), self.draw.randrange(7), self.draw.randrange(4)) + gene(self.draw)

    def left_out(self):
        return 0 if self.draw.random() < 0.5 else self.draw.randrange(64)

    def first(self):
        nodes = self.draw.randint(1, 4)
        genes = [self.edge() for _ in range(2 + self.draw.randrange(3 * nodes))]
        return families.Pattern(nodes, self.draw.randint(1, 3), self.left_out(), genes)

    def changed(self, old):
        genes, left_out, draw = list(old.genes), old.left_out, self.draw
        for _ in range(draw.randint(1, 2)):
            place, way = draw.randrange(len(genes)), draw.randrange(6)
            if way == 0 and len(genes) < 12:
                genes.append(self.edge())
            elif way == 1 and len(genes) > 1:
                genes.pop(place)
            elif way == 2:
                genes[place] = self.edge()
            elif way == 3:
                genes[place] = genes[place][:3] + gene(draw)
            elif way == 4:
                left_out = self.left_out()
            elif way == 5:
                genes[place] = genes[place][:1] + (draw.randrange(7), draw.randrange(4)) + genes[place][3:]
        return families.Pattern(old.nodes, old.hubs, left_out, genes)

    def made(self, found, size):
        graph = found.graph(size)
        return graph.text(self.command), graph.n + 2 * len(graph.edges)


class Strips:
    """Patterns of strips, for `ground`."""
    command = "ground"

    def __init__(self, draw):
        self.draw = draw

    def first(self):
        kind = self.draw.choice(["square", "square", "triangular", "triangular", "hexagonal", "cylinder"])
        genes = [gene(self.draw) for _ in range(9)]
        return families.Strip(kind, self.draw.randint(2, 8), self.draw.randrange(3), genes)

    def changed(self, old):
        genes, draw = list(old.genes), self.draw
        for _ in range(draw.randint(1, 2)):
            genes[draw.randrange(9)] = draw.choice(genes) if draw.random() < 0.3 else gene(draw)
        rows = draw.randint(2, 8) if draw.random() < 0.1 else old.rows
        return families.Strip(old.kind, rows, draw.randrange(3) if draw.random() < 0.1 else old.signs, genes)

    def made(self, found, size):
        made = found.instance(size)
        return made.text(self.command), made.instance.n + 2 * len(made.instance.bonds)


class Call:
    """How a call of the library ended, as a run: one that was refused took no time."""
    peak = 0

    def __init__(self, told):
        self.seconds = told if isinstance(told, float) else 0.0
        self.status = 0 if isinstance(told, float) or told == "refused" else None if told == "too long" else 1


def timed(said, space, found, size, path, runs):
    """The run of a pattern at a size, and its microseconds for each node and each end of an edge."""
    text, ends = space.made(found, size)
    path.write_text(text)
    if said.library:
        least = Call(library_seconds(path, said))
    else:
        least = best_of(said.program, space.command, path, runs, said.within)
    return least, 1e6 * least.seconds / ends


def climb(said, space, path, until):
    """A pattern that takes long, from a random one by changes that make it take longer."""
    best, most, idle = None, 0.0, 0
    for step in range(10**9):
        if idle >= 150 or time.monotonic() > until:
            return best
        found = space.first() if step < 20 or space.draw.random() < 0.02 else space.changed(best)
        least, each = timed(said, space, found, said.nodes, path, 1)
        if least.status == 0 and each > most:
            least, each = timed(said, space, found, said.nodes, path, 3)
        if least.status != 0:
            return found
        if best is None or each > most:
            best, most, idle = found, each, 0
        else:
            idle += 1


def search(said):
    draw = random.Random(said.seed)
    commands = "ground" if said.library else said.commands
    spaces = [space(draw) for space in (Graphs, Strips) if space.command in commands.split(",")]
    worst, wrong, until = {space.command: 0.0 for space in spaces}, 0, time.monotonic() + 60 * said.search
    with tempfile.TemporaryDirectory(prefix="worst-") as folder:
        path = pathlib.Path(folder) / "pattern"
        while spaces and time.monotonic() < until:
            space = draw.choice(spaces)
            found = climb(said, space, path, until)
            if found is None:
                break
            least, each = timed(said, space, found, said.size, path, 1)
            wrong += least.status != 0
            if least.status != 0 or least.seconds > 0.7 * worst[space.command]:
                worst[space.command] = max(worst[space.command], least.seconds)
                ends = "" if least.status == 0 else f", status {least.status}"
                told = "?" if said.library else accepted(said.program, space.command, path, least.peak, said.within)
                print(f'{space.command} {1000 * least.seconds:.1f} ms, {each:.2f} us each, accepted {told}{ends}: "{found.line()}",', flush=True)
    return 1 if wrong else 0


def main():
    if sys.argv[1:2] == ["caller"]:
        return caller(*sys.argv[2:])
    ask = argparse.ArgumentParser()
    ask.add_argument("--program", default=str(stopwatch.PROGRAM))
    ask.add_argument("--only", default="")
    ask.add_argument("--commands", default="ground,tjoin,postman")
    ask.add_argument("--size", type=int, default=families.SPINS)
    ask.add_argument("--runs", type=int, default=3)
    ask.add_argument("--within", type=int, default=60)
    ask.add_argument("--search", type=float)
    ask.add_argument("--seed", type=int, default=1)
    ask.add_argument("--nodes", type=int, default=384)
    ask.add_argument("--write")
    ask.add_argument("--library", action="store_true")
    said = ask.parse_args()
    if said.write is not None:
        write(said.write, said.size, said.commands.split(","), said.only)
        return 0
    if said.search:
        return search(said)
    return library(said) if said.library else table(said)


sys.exit(main())
