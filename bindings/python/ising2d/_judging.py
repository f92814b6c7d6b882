"""A judge of minimum T-joins and of their cuts, in plain Python: it trusts no solver."""

from __future__ import annotations

from collections import Counter
from typing import Dict, List, Sequence, Set, Tuple

Edge = Tuple[int, int, int]
Cuts = Sequence[Tuple[int, Sequence[int]]]

# The number of the first test that fails, and the numbers that show it; 0 where none does.
Finding = Tuple[int, Tuple[int, ...]]


class Judge:
    """Nodes from 0 to n - 1, edges (a, b, weight), and the terminals."""

    def __init__(self, n: int, edges: Sequence[Edge], terminals: Sequence[int]) -> None:
        self.n, self.edges, self.terminals = n, edges, set(terminals)
        self.around: List[List[int]] = [[] for _ in range(n)]
        for k, (a, b, _) in enumerate(edges):
            self.around[a].append(k)
            self.around[b].append(k)

    def on_join(self, weight: int, chosen: Sequence[int], cuts: Cuts) -> Finding:
        """The verdict on a T-join, and on the cuts that are to prove it."""
        number, kept = self.on_edges(weight, chosen)
        return (number, kept) if number else self._on_cuts(cuts, 2 * weight)

    def on_edges(self, weight: int, chosen: Sequence[int]) -> Finding:
        """The verdict on the edges alone: whether they are a T-join of this weight."""
        for k, count in Counter(chosen).items():
            if not 0 <= k < len(self.edges) or count > 1:
                return 1, (k,)
        wrong = odd_nodes(self.edges, chosen) ^ self.terminals
        if wrong:
            return 2, (min(wrong),)
        own = sum(self.edges[k][2] for k in chosen)
        return (0, ()) if own == weight else (3, (own,))

    def on_walk(self, weight: int, start: int, steps: Sequence[Tuple[int, int]], cuts: Cuts) -> Finding:
        """The verdict on a closed walk, and on the cuts that are to prove it."""
        at, walked = start, set()
        for place, (k, node) in enumerate(steps):
            if not 0 <= k < len(self.edges) or sorted(self.edges[k][:2]) != sorted((at, node)):
                return 1, (place,)
            walked.add(k)
            at = node
        if at != start or len(walked) != len(self.edges):
            return 2, ()
        own = sum(self.edges[k][2] for k, _ in steps)
        if own != weight:
            return 3, (own,)
        # Of the edges that are walked again, each odd cut has one more than once.
        return self._on_cuts(cuts, 2 * (weight - sum(edge[2] for edge in self.edges)))

    def _on_cuts(self, cuts: Cuts, wanted: int) -> Finding:
        """The verdict on cuts that are to pack, and to weigh so much together."""
        loads = [0] * len(self.edges)
        for place, (weight, chosen) in enumerate(cuts):
            if weight < 1 or any(not 0 <= k < len(loads) for k in chosen) or len(set(chosen)) < len(chosen):
                return 4, (place,)
            if not self._is_odd_cut(chosen):
                return 5, (place,)
            for k in chosen:
                loads[k] += weight
        for k, load in enumerate(loads):
            if load > 2 * self.edges[k][2]:
                return 6, (k, load)
        total = sum(weight for weight, _ in cuts)
        return (0, ()) if total == wanted else (7, (total, wanted))

    def _is_odd_cut(self, chosen: Sequence[int]) -> bool:
        """Whether the edges are all that leave some set with an odd number of terminals."""
        crossing = set(chosen)
        side: Dict[int, bool] = {}
        for first in range(self.n):
            if first in side:
                continue
            side[first] = False
            if not self._spread(first, crossing, side):
                return False
        return sum(side[node] for node in self.terminals) % 2 == 1

    def _spread(self, first: int, crossing: Set[int], side: Dict[int, bool]) -> bool:
        """Gives each node that is reached its side; no where an edge has the wrong sides."""
        waiting = [first]
        while waiting:
            node = waiting.pop()
            for k in self.around[node]:
                a, b, _ = self.edges[k]
                other = b if node == a else a
                wanted = side[node] != (k in crossing)
                if other not in side:
                    side[other] = wanted
                    waiting.append(other)
                elif side[other] != wanted:
                    return False
        return True


def odd_nodes(edges: Sequence[Edge], chosen: Sequence[int]) -> Set[int]:
    """The nodes that meet an odd number of ends of the chosen edges."""
    ends = Counter(node for k in chosen for node in edges[k][:2])
    return {node for node, count in ends.items() if count % 2}
