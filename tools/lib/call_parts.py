#!/usr/bin/env python3
"""What each part of a ground state with its nest takes, from reading the numbers to judging the nest, on
drawn lattices: shares of the time, and seconds. It needs built/libising2d.so (bindings/build) and perf or
valgrind, and no numpy. Outside the gate.

  tools/measure parts [--by perf|instructions] [--spins 1000,10000,100000] [--kinds square] [--laws pm,uniform]

By `perf` the process is looked at a thousand times a second, and a part has the looks that found it at
work; without a share stands what the C library does for it: to fill, to copy and to give memory. By
`instructions` valgrind counts them (callgrind, 30 to 60 times as slow), with those of the C library at the
part that called it; memory that is waited for does not count there. A part is a list of crates and modules
(PARTS): what the compiler has put into its caller counts for that.
"""
import argparse
import collections
import math
import pathlib
import re
import shutil
import subprocess
import sys
import tempfile
import time

import stopwatch
from stopwatch import LIBRARY

# The parts in the order in which they come, each with the beginnings of its functions' names. Of two that
# fit the longer decides.
PARTS = {
    "reading numbers": ("ising2d_c", "sg_calls", "sg_lattice", "sg_model", "sg_draft", "sg_json", "sg_reader"),
    "faces, genus, components": ("sg_faces", "sg_planar"),
    "dual and frustrated faces": ("sg_dual", "sg_graph"),
    "growing regions": ("sg_region_engine", "sg_regions", "sg_growth", "sg_forest", "sg_work", "sg_slots"),
    "ways between mates": ("sg_region_ways",),
    "handing the nest on": ("sg_regions::nest_proposal",),
    "judging it": ("sg_nest",),
    "matching": ("sg_tjoin", "sg_dist", "sg_match", "sg_slack", "sg_arena", "sg_moat"),
    "spins and energy": ("sg_ground", "sg_planar::spins"),
}
OTHER, OUTSIDE = "lists and the rest", "memory (C library)"
# How long the calls of a small lattice are repeated by perf, in seconds of CPU time.
LONG_ENOUGH = 2.0


def part_of(name):
    """The part of a function by its name, if it has one."""
    fits = [(len(start), part) for part, starts in PARTS.items() for start in starts if start in name]
    return max(fits)[1] if fits else None


def inner(kind, law, side, least):
    """Solves a lattice until so many seconds are gone, and prints what a call takes."""
    lattice = stopwatch.package().draw(law, 1, kind, int(side), int(side))
    begun, calls = time.process_time(), 0
    while calls == 0 or time.process_time() - begun < float(least):
        lattice.ground(nest=True)
        calls += 1
    print((time.process_time() - begun) / calls)


def words_of(kind, law, side, least):
    return [sys.executable, __file__, "inner", kind, law, str(side), str(least)]


def seconds_of(words):
    return float(subprocess.run(words, check=True, stdout=subprocess.PIPE).stdout.split()[-1])


def by_perf(room, words):
    """What each part takes of the looks, and the seconds of a call."""
    seen = room / "perf.data"
    record = ["perf", "record", "-q", "-e", "cpu-clock:u", "-F", "997", "-o", str(seen), "--"]
    seconds = seconds_of(record + words)
    script = ["perf", "script", "-i", str(seen), "-F", "ip,sym,dso"]
    told = subprocess.run(script, check=True, stdout=subprocess.PIPE, stderr=subprocess.DEVNULL).stdout.decode()
    looks = collections.Counter()
    for line in told.splitlines():
        found = re.match(r"\s*[0-9a-f]+ (.*) \((.*)\)$", line)
        if found and LIBRARY.name in found[2]:
            looks[part_of(found[1]) or OTHER] += 1
        elif found and "libc" in found[2]:
            looks[OUTSIDE] += 1
    return looks, seconds


def functions_of(text):
    """Of what callgrind wrote: for each function its own instructions, whether it is the library's, and
    those of the calls from it."""
    names, own, calls, ours = {}, collections.Counter(), collections.Counter(), set()
    function = callee = None
    in_library = is_call = False

    def name_of(word):
        number, _, name = word.partition(" ")
        return names.setdefault(number, name) or names[number]

    for line in text:
        head, _, rest = line.rstrip("\n").partition("=")
        if head == "ob":
            in_library = LIBRARY.name in name_of("ob" + rest)
        elif head == "cob":
            name_of("ob" + rest)
        elif head == "fn":
            function = name_of("fn" + rest)
            if in_library:
                ours.add(function)
        elif head == "cfn":
            callee = name_of("fn" + rest)
        elif head == "calls":
            is_call = True
        elif line[:1].isdigit() or line[:1] in "+-*":
            cost = int(line.split()[1])
            if is_call:
                calls[function, callee] += cost
            else:
                own[function] += cost
            is_call = False
    return own, calls, ours


def by_instructions(room, words):
    """What each part takes of the instructions, and the seconds of a call without valgrind."""
    seen = room / "callgrind.out"
    valgrind = ["valgrind", "-q", "--tool=callgrind", f"--callgrind-out-file={seen}"]
    seconds_of(valgrind + words[:-1] + ["0"])
    with open(seen) as text:
        own, calls, ours = functions_of(text)
    counts = collections.Counter()
    for name in ours:
        counts[part_of(name) or OTHER] += own[name]
    for (caller, callee), cost in calls.items():
        if caller in ours and callee not in ours:
            counts[part_of(caller) or OTHER] += cost
    return counts, seconds_of(words)


def main():
    if sys.argv[1:2] == ["inner"]:
        return inner(*sys.argv[2:])
    can_perf = shutil.which("perf") is not None
    ask = argparse.ArgumentParser()
    ask.add_argument("--by", choices=("perf", "instructions"), default="perf" if can_perf else "instructions")
    ask.add_argument("--spins", default="1000,10000,100000")
    ask.add_argument("--kinds", default="square")
    ask.add_argument("--laws", default="pm,uniform")
    said = ask.parse_args()
    looked = by_perf if said.by == "perf" else by_instructions
    columns = []
    with tempfile.TemporaryDirectory(prefix="parts-") as folder:
        room = pathlib.Path(folder)
        for kind in said.kinds.split(","):
            for law in said.laws.split(","):
                for spins in map(int, said.spins.split(",")):
                    side = math.isqrt(spins)
                    counts, seconds = looked(room, words_of(kind, law, side, LONG_ENOUGH))
                    columns.append((f"{kind} {law}", side * side, counts, seconds))
    print(f"{'':26}" + "".join(f"{name:>18}" for name, _, _, _ in columns))
    print(f"{'spins':26}" + "".join(f"{spins:18}" for _, spins, _, _ in columns))
    print(f"{'a call, ms':26}" + "".join(f"{1000 * seconds:18.2f}" for _, _, _, seconds in columns))
    for part in [*PARTS, OTHER, OUTSIDE]:
        if any(counts[part] for _, _, counts, _ in columns):
            row = ""
            for _, _, counts, seconds in columns:
                share = counts[part] / max(1, counts.total())
                row += f"{100 * share:8.1f}%{1000 * seconds * share:9.2f}"
            print(f"{part:26}" + row)
    return 0


sys.exit(main())
