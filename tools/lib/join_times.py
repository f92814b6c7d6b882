#!/usr/bin/env python3
"""Minimum T-joins from Python beside other programs on the same graphs: CPU time, the least of some runs. It needs the
library, and uses networkx if it is installed.

  tools/measure joins [--only WORD] [--runs 5] [--pairs 128] [--within SECONDS] [--peer COMMAND ..]

Ours is one call of `tjoin` on a graph that was read before, with its nest; on the code it is a list of `tjoin_many`.
networkx finds shortest paths between all terminals, if there are at most so many as `--pairs` says, and a minimum
matching of them. A peer is a command that reads a graph in the records of `tjoin` and prints `weight,NUMBER` first; its
time is that of the whole process, of at most so many CPU seconds (120 by default).

A row for each graph. The exit status is 1 if two weights differ.
"""
import argparse
import shlex
import sys

import families
import stopwatch

ising2d = stopwatch.package()

try:
    import networkx
except ImportError:
    networkx = None

# How many lists of terminals the code is given at once.
SHOTS = 2000


def torus(side, rate, seed):
    """The graph of a toric code, and the terminals of errors that are drawn with this probability."""
    below = families.generator(seed)
    at = lambda r, c: r % side * side + c % side
    places = [(r, c) for r in range(side) for c in range(side)]
    edges = [(at(r, c), at(r, c + 1), 1) for r, c in places] + [(at(r, c), at(r + 1, c), 1) for r, c in places]
    odd = set()
    for a, b, _ in edges:
        if below(1000) < 1000 * rate:
            odd ^= {a, b}
    return families.Graph(side * side, edges, sorted(odd))


def a_tenth(graph, seed):
    """The same graph with a drawn tenth of its nodes as terminals."""
    below = families.generator(seed)
    found = [x for x in range(graph.n) if below(10) == 0]
    return families.Graph(graph.n, graph.edges, found[: len(found) // 2 * 2])


def all_of(graph):
    """The same graph with all nodes as terminals, but for the last one of an odd number."""
    return families.Graph(graph.n, graph.edges, list(range(graph.n // 2 * 2)))


GRAPHS = {
    "random, 64 nodes, 192 edges": lambda: all_of(families.random(64, 192, 1, families.drawn(1))),
    "random, 128 nodes, 384 edges": lambda: all_of(families.random(128, 384, 1, families.drawn(1))),
    "random, 2048 nodes, 6144 edges": lambda: all_of(families.random(2048, 6144, 1, families.drawn(1))),
    "toric code, d = 21, p = 0.10": lambda: torus(21, 0.1, 1),
    "grid, 44 x 44, equal weights": lambda: all_of(families.grid(44**2, families.always(1))),
    "grid, 44 x 44": lambda: a_tenth(families.grid(44**2, families.drawn(1)), 2),
    "grid, 300 x 300": lambda: a_tenth(families.grid(300**2, families.drawn(1)), 2),
    "grid, 1000 x 1000": lambda: a_tenth(families.grid(1000**2, families.drawn(1)), 2),
}


def least(runs, call):
    """What a call returns, and its least CPU seconds of so many; one that takes two seconds is not made again."""
    found, seconds = stopwatch.timed(call)
    for _ in range(runs - 1):
        if seconds < 2:
            seconds = min(seconds, stopwatch.timed(call)[1])
    return found, seconds


def ours(graph, runs):
    """The weight, and the seconds."""
    network = ising2d.Network(graph.n, graph.edges)
    found, seconds = least(runs, lambda: network.tjoin(graph.terminals))
    assert found.check()
    return found.weight, seconds


def of_many(side, rate):
    """The seconds of one list of terminals, of many."""
    lists = [torus(side, rate, seed) for seed in range(SHOTS)]
    network = ising2d.Network(lists[0].n, lists[0].edges)
    return least(3, lambda: network.tjoin_many([graph.terminals for graph in lists], threads=1))[1] / SHOTS


def by_networkx(graph, pairs):
    """The weight and the seconds; none where there are too many terminals."""
    if networkx is None or len(graph.terminals) > pairs:
        return None
    web = networkx.Graph()
    for a, b, w in graph.edges:
        if a != b and (not web.has_edge(a, b) or w < web.edges[a, b]["weight"]):
            web.add_edge(a, b, weight=w)

    def solved():
        near = networkx.Graph()
        for node in graph.terminals:
            lengths = networkx.single_source_dijkstra_path_length(web, node)
            near.add_weighted_edges_from((node, other, lengths[other]) for other in graph.terminals if other != node)
        return sum(near.edges[pair]["weight"] for pair in networkx.min_weight_matching(near))

    return least(1, solved)


def by_peer(command, graph, said):
    """The weight and the seconds; none if it takes too long."""
    text = graph.text("tjoin")
    ran = stopwatch.quickest(said.runs, lambda: stopwatch.run(shlex.split(command), text, within=said.within))
    if ran.status is None:
        return None
    word, _, weight = ran.out.partition("\n")[0].partition(",")
    assert ran.status == 0 and word == "weight", ran.err
    return int(weight), ran.seconds


def shown(found):
    return "-" if found is None else f"{1000 * found[1]:.{2 if found[1] < 0.1 else 0}f}"


def main():
    ask = argparse.ArgumentParser()
    ask.add_argument("--only", default="")
    ask.add_argument("--runs", type=int, default=5)
    ask.add_argument("--pairs", type=int, default=128)
    ask.add_argument("--within", type=int, default=120)
    ask.add_argument("--peer", action="append", default=[])
    said = ask.parse_args()
    names = ["terminals", "ours ms", "networkx ms", *(f"peer {number + 1} ms" for number in range(len(said.peer)))]
    print(f"{'graph':32}" + "".join(f"{name:>13}" for name in names), flush=True)
    bad = 0
    for name, make in GRAPHS.items():
        if said.only in name:
            graph = make()
            own = ours(graph, said.runs)
            others = [by_networkx(graph, said.pairs), *(by_peer(command, graph, said) for command in said.peer)]
            agree = all(other is None or other[0] == own[0] for other in others)
            bad += not agree
            row = [str(len(graph.terminals)), shown(own), *map(shown, others)]
            print(f"{name:32}" + "".join(f"{field:>13}" for field in row) + ("" if agree else "  WEIGHTS DIFFER"), flush=True)
    if said.only in "many":
        seconds = of_many(21, 0.1)
        print(f"toric code, d = 21, p = 0.10, one of {SHOTS} lists: {1000 * seconds:.3f} ms", flush=True)
    return 1 if bad else 0


if __name__ == "__main__":
    sys.exit(main())
