#!/usr/bin/env python3
"""Judges a certified set, python3 judge.py [set.jsonl]: is the ground state of each instance proved?

Each line is an object of JSON: a lattice (kind, rows, cols, couplings) or a graph (kind general, n, bonds,
rotation), an energy, spins, and a proof. The energy is minus the sum of coupling times both spins. A yes
means: the spins have the energy, and the proof shows that no assignment has less. A proof is one of two:

loops: pairs of a weight and bonds. Each is a closed loop with an odd number of negative couplings, so every
assignment breaks one of its bonds; the weights over a bond sum to at most twice the size of its coupling. So
its broken bonds weigh at least half of all loops: no energy is below all loops less the sizes of all couplings.

nest: regions of faces. A face is frustrated if an odd number of its darts belong to negative couplings; the
broken bonds of every assignment join the frustrated faces by paths over the dual graph. A region has a height
over each of its faces, which is its whole radius over the frustrated ones, and 0 outside. It holds an odd
number of these, so a path climbs out of it; over one bond all heights together change by at most four times
its size. So the broken bonds of every assignment weigh at least a quarter of all radii. Python 3
alone, and asks no solver. Exit status: 0 if all are proved, 1 if not."""
import json
import sys
from typing import Any, List, Set, Tuple

NONE = 2**32 - 1

def need(holds: object, reason: str) -> None:
    if not holds:
        raise ValueError(reason)

def whole(value: Any, least: int = -(2**70), most: int = 2**70) -> int:
    need(type(value) is int and least <= value <= most, f"{value!r:.40} is not a whole number in range")
    return int(value)

def lattice(kind: str, rows: int, cols: int) -> Tuple[Any, Any]:
    """The ends of the bonds of a lattice, and the darts of each spin in cyclic order."""
    need(kind in ("square", "triangular", "hexagonal", "cylinder"), "there is no such kind")
    ends: List[Tuple[int, int]] = []
    around = [[-1] * 6 for _ in range(rows * cols)]
    # Steps down and right, and their places in the order east, north, north-west, west, south, south-east.
    for down, right, place in ((0, 1, 0), (1, 0, 4)) + (((1, 1, 5),) if kind == "triangular" else ()):
        for r in range(rows - down):
            for c in range(cols - right + (kind == "cylinder" and not down)):
                if not (kind == "hexagonal" and down and (r + c) % 2):
                    u, v = r * cols + c, (r + down) * cols + (c + right) % cols
                    around[u][place], around[v][(place + 3) % 6] = 2 * len(ends), 2 * len(ends) + 1
                    ends.append((u, v))
    return ends, [[dart for dart in own if dart >= 0] for own in around]

def instance(line: Any) -> Tuple[Any, Any, Any]:
    """The ends and couplings of the bonds, and the darts of each spin."""
    if line["kind"] == "general":
        n, bonds, rotation = whole(line["n"], 1), line["bonds"], line["rotation"]
        ends = [(whole(u, 0, n - 1), whole(v, 0, n - 1)) for u, v, _ in bonds]
        own: List[List[int]] = [[] for _ in range(len(rotation))]
        for dart in range(2 * len(ends)):
            own[ends[dart // 2][dart % 2]].append(dart)
        listed = [sorted(whole(dart) for dart in darts) for darts in rotation]
        need(len(rotation) == n and listed == own, "the rotation does not list the darts of each spin, each once")
        return ends, [whole(j) for _, _, j in bonds], rotation
    rows, cols = whole(line["rows"], 1), whole(line["cols"], 3 if line["kind"] == "cylinder" else 1)
    ends, rotation = lattice(line["kind"], rows, cols)
    need(len(line["couplings"]) == len(ends), "the number of couplings differs")
    return ends, [whole(j) for j in line["couplings"]], rotation

def judge_loops(ends: Any, couplings: Any, energy: int, loops: Any) -> None:
    loads, total = [0] * len(ends), 0
    for weight, bonds in loops:
        total += whole(weight, 1)
        need(len(set(bonds)) == len(bonds) > 0, "a loop has no bonds, or one twice")
        odd: Set[int] = set()
        for k in bonds:
            loads[whole(k, 0, len(ends) - 1)] += weight
            odd ^= {ends[k][0]} ^ {ends[k][1]}
        need(not odd, "a loop is not closed")
        need(sum(couplings[k] < 0 for k in bonds) % 2 == 1, "a loop is not frustrated")
    need(all(load <= 2 * abs(j) for load, j in zip(loads, couplings)), "the loops are too heavy for a bond")
    need(total == energy + sum(map(abs, couplings)), "the loops do not add up to the energy")

def faces_of(ends: Any, rotation: Any) -> Tuple[List[int], int]:
    """For each dart its face, in the order of the least darts, and the number of all faces."""
    behind = {dart: own[i - len(own) + 1] for own in rotation for i, dart in enumerate(own)}
    face_of, count = [-1] * (2 * len(ends)), 0
    for dart in range(len(face_of)):
        count += face_of[dart] < 0
        while face_of[dart] < 0:
            face_of[dart] = count - 1
            dart = behind[dart ^ 1]
    return face_of, count + sum(not own for own in rotation)

def judge_nest(ends: Any, couplings: Any, rotation: Any, broken: int, nest: Any) -> None:
    parents, radii, regions, taken = (nest[name] for name in ("parents", "radii", "regions", "at_radii"))
    face_of, faces = faces_of(ends, rotation)
    need(len(parents) == len(radii) and len(regions) == len(taken) == faces, "the nest has another size")
    for r, parent in enumerate(parents):
        whole(radii[r], 0)
        need(parent == NONE or whole(parent, r + 1, len(radii) - 1), "a region is part of itself")
    for f, r in enumerate(regions):
        most = 0 if r == NONE else radii[whole(r, 0, len(radii) - 1)]
        whole(taken[f], 0, most)
    frustrated: Set[int] = set()
    inside = [0] * len(radii)
    for k, j in enumerate(couplings):
        if j < 0:
            frustrated ^= {face_of[2 * k]} ^ {face_of[2 * k + 1]}
    for f in frustrated:
        need(taken[f] == 0, "a frustrated face is not taken at once")
        if regions[f] != NONE:
            inside[regions[f]] ^= 1
    for r, parent in enumerate(parents):  # the parts of a region come before it
        need(inside[r] or not radii[r], "a region holds an even number of frustrated faces")
        if parent != NONE:
            inside[parent] ^= inside[r]
    for k, j in enumerate(couplings):
        (p, s), (q, t) = ((regions[face_of[dart]], taken[face_of[dart]]) for dart in (2 * k, 2 * k + 1))
        climb = 0
        while p != q:  # up from the earlier region, to the first that holds both faces
            if p < q:
                climb, p, s = climb + radii[p] - s, parents[p], 0
            else:
                climb, q, t = climb + radii[q] - t, parents[q], 0
        need(climb + abs(s - t) <= 4 * abs(j), "the heights change by too much over a bond")
    need(sum(radii) == 4 * broken, "the radii do not add up to the broken bonds")

def judge(line: Any) -> None:
    """Raises ValueError, with the reason, if a line is not proved."""
    ends, couplings, rotation = instance(line)
    spins, energy = [whole(spin, -1, 1) for spin in line["spins"]], whole(line["energy"])
    need(len(spins) == len(rotation) and all(spins), "there is not one value of 1 or -1 for each spin")
    own = -sum(j * spins[u] * spins[v] for (u, v), j in zip(ends, couplings))
    need(energy == own, f"the spins have the energy {own}")
    if "nest" in line:
        judge_nest(ends, couplings, rotation, (energy + sum(map(abs, couplings))) // 2, line["nest"])
    else:
        judge_loops(ends, couplings, energy, line["loops"])

def main(path: str) -> int:
    bad = 0
    with open(path, encoding="utf-8") as file:
        for number, text in enumerate(file, 1):
            name = f"line {number}"
            try:
                line = json.loads(text)
                name = line.get("id", name)
                judge(line)
                print(name, "yes", line["energy"])
            except (ValueError, TypeError, KeyError, IndexError, AttributeError, RecursionError) as fault:
                bad += 1
                print(name, f"no: {fault!r:.200}")
    return 1 if bad else 0

if __name__ == "__main__":
    sys.exit(main(sys.argv[1] if len(sys.argv) > 1 else (__file__.rpartition("/")[0] or ".") + "/set.jsonl"))
