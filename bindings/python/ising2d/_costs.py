"""Costs of chosen bonds: bounds that are narrowed in pieces, by several threads, until they meet. The library
stores nothing between its calls, so the bounds are the whole state of a search."""

from __future__ import annotations

import time
from typing import TYPE_CHECKING, Any, Dict, Iterator, List, NamedTuple, Optional, Set, Tuple

from ._arrays import as_array, is_numpy, numpy, numbers, read_only, shortened, whole_numbers, zeros
from ._errors import RefusalCode, TooLarge
from ._ffi import enclose_costs, narrow_bounds
from ._stopping import Telling, Watch
from ._threads import in_order

if TYPE_CHECKING:
    from ._types import BoolArray, Int64Array, Integers

# Costs of all bonds are found of so many spins; of chosen ones, of as many as a ground state.
MOST_SPINS_OF_ALL = 2**14
# A piece has so many bonds at first; then as many as take so many seconds, the ground state with them, or so many
# times as long as the ground state.
_FIRST, _SECONDS, _MOST, _BEGINNINGS = 8, 0.5, 4096, 4


class CostBounds(NamedTuple):
    """A lower and an upper bound of each bond's cost, two arrays of shape ``(bonds,)``. If the two are
    equal, they are the cost. The value -1 means that no bound is known.

    >>> import ising2d
    >>> lattice = ising2d.draw("uniform", 1, "square", 5, 5)
    >>> try:
    ...     lattice.costs(progress=lambda done, whole: done < 10, threads=1)
    ... except ising2d.Stopped as stopped:
    ...     low, high = stopped.found
    >>> bool((low <= high).all()) if hasattr(low, "all") else all(a <= b for a, b in zip(low, high))
    True
    """

    low: Int64Array
    high: Int64Array

    def known(self) -> BoolArray:
        """For each bond whether its cost is known."""
        if is_numpy(self.low):
            found: BoolArray = (self.low == self.high) & (self.low >= 0)
            return found
        listed: Any = [a == b and a >= 0 for a, b in zip(self.low, self.high)]
        plain: BoolArray = listed
        return plain

    def merged(self, other: CostBounds) -> CostBounds:
        """The better of two bounds of each bond, as of two searches on the same instance."""
        own, its = (Bounds(bounds) for bounds in (self, other))
        own.merge(its.low, its.high)
        return own.kept()


class Bounds:
    """Bounds that can be written."""

    def __init__(self, known: CostBounds) -> None:
        self.low, self.high = (_copy(values) for values in known)

    def merge(self, low: Any, high: Any) -> None:
        """Keeps the larger lower bounds and the smaller upper ones; -1 stands for none."""
        if is_numpy(self.low):
            numpy.maximum(self.low, low, out=self.low)
            is_better = (high >= 0) & ((self.high < 0) | (high < self.high))
            self.high[is_better] = high[is_better]
            return
        for k, (one, other) in enumerate(zip(low, high)):
            self.low[k] = max(self.low[k], one)
            if other >= 0 and (self.high[k] < 0 or other < self.high[k]):
                self.high[k] = other

    def kept(self) -> CostBounds:
        """A copy that is not written."""
        return CostBounds(read_only(_copy(self.low)), read_only(_copy(self.high)))

    def widest(self, asked: Any) -> Any:
        """Those of the bonds whose cost is not known, the widest bounds first."""
        if is_numpy(self.low):
            low, high = self.low[asked], self.high[asked]
            width = numpy.where(high < 0, numpy.int64(2**62), high - low)
            order = numpy.argsort(-width, kind="stable")
            return asked[order[: int((width > 0).sum())]]
        width_of: Dict[int, int] = {k: self.high[k] - self.low[k] if self.high[k] >= 0 else 2**62 for k in asked}
        return sorted((k for k in asked if width_of[k] > 0), key=lambda k: -width_of[k])


def _copy(values: Any) -> Any:
    return values.copy() if is_numpy(values) else values[:]


def unknown_bounds(count: int) -> CostBounds:
    """Bounds of so many bonds of which nothing is known."""
    found = []
    for _ in range(2):
        values = zeros("int64", count)
        for k in range(0 if is_numpy(values) else count):
            values[k] = -1
        if is_numpy(values):
            values[:] = -1
        found.append(values)
    return CostBounds(*found)


def bounds_of(given: Any, count: int) -> CostBounds:
    """Bounds that a caller hands in: two arrays with an entry for each bond."""
    try:
        low, high = given
    except (TypeError, ValueError):
        raise TypeError(f"bounds: expected a CostBounds, not {shortened(given)}") from None
    found = CostBounds(numbers(low, "int64", "low bounds"), numbers(high, "int64", "high bounds"))
    for values in found:
        if len(values) != count:
            raise ValueError(f"there are {len(values)} bounds, and {count} bonds")
    wrong = _crossed(found)
    if wrong is not None:
        raise ValueError(f"bounds: of bond {wrong} the lower one is above the upper one")
    return found


def _crossed(bounds: CostBounds) -> Optional[int]:
    """The first bond whose lower bound is above its upper one."""
    if is_numpy(bounds.low):
        places = numpy.flatnonzero((bounds.high >= 0) & (bounds.high < bounds.low))
        return int(places[0]) if places.size else None
    return next((k for k, (a, b) in enumerate(zip(bounds.low, bounds.high)) if 0 <= b < a), None)


def asked_bonds(bonds: Any, count: int) -> Any:
    """The numbers of bonds, as an array."""
    asked = whole_numbers(bonds, "uint32", "numbers asked for")
    wrong = next((k for k in asked.tolist() if k >= count), None)
    if wrong is not None:
        raise ValueError(f"bonds: there is no bond {wrong} (allowed: 0 to {count - 1})")
    return asked


def refuse_all_of(spins: int) -> None:
    """Raises a refusal where there are too many spins for the costs of all bonds."""
    if spins > MOST_SPINS_OF_ALL:
        sentence = f"costs of all bonds are asked for, and there are {spins} spins"
        allowed = f"at most {MOST_SPINS_OF_ALL}; bonds=.. asks for those of chosen bonds"
        raise TooLarge(RefusalCode.TOO_MANY_SPINS, (spins,), words=(sentence, allowed))


class Search:
    """Narrows the bounds of chosen bonds until they meet."""

    def __init__(self, given: Any, asked: Any, known: CostBounds, threads: int) -> None:
        self.given, self.bounds = given, Bounds(known)
        self.asked = numpy.unique(asked).astype("int64") if is_numpy(asked) else sorted(set(asked.tolist()))
        self.taken: Set[int] = set()
        self.size, self.seconds, self.threads = _FIRST, _SECONDS, threads

    def run(self, progress: Telling) -> CostBounds:
        """All bounds when those of the chosen bonds meet. Raises ``Stopped`` with those so far."""
        open_first = len(self.bounds.widest(self.asked))
        with Watch(progress, open_first, self.bounds.kept) as watch:
            done = 0
            for low, high in in_order(self._narrowed, self._pieces(), self.threads):
                self.bounds.merge(low, high)
                now = open_first - len(self.bounds.widest(self.asked))
                watch.step(now - done)
                done = now
        return self.bounds.kept()

    def _pieces(self) -> Iterator[Tuple[List[int], Any, Any]]:
        """Pieces of the bonds that are open, with copies of all bounds, which the threads take one by one."""
        while True:
            widest = self.bounds.widest(self.asked)
            rest = [k for k in (widest.tolist() if is_numpy(widest) else widest) if k not in self.taken]
            if not rest:
                return
            # At the end each thread has a part of the rest.
            share = len(rest) if self.threads == 1 else -(-len(rest) // (2 * self.threads))
            piece = rest[: min(self.size, share)]
            self.taken.update(piece)
            yield piece, _copy(self.bounds.low), _copy(self.bounds.high)

    def _narrowed(self, piece: Tuple[List[int], Any, Any]) -> Tuple[Any, Any]:
        """The bounds that one call writes; it sets how many bonds the next pieces have."""
        bonds, low, high = piece
        taken = self._timed(bonds, low, high)
        if taken > 2 * self.seconds and self.seconds == _SECONDS:
            # Each call begins with a ground state, which should be a small part of it.
            self.seconds = max(_SECONDS, _BEGINNINGS * self._timed([], low, high))
        if taken < self.seconds / 2:
            self.size = min(2 * self.size, _MOST)
        elif taken > 2 * self.seconds:
            self.size = max(self.size // 2, 1)
        return low, high

    def _timed(self, bonds: List[int], low: Any, high: Any) -> float:
        """Narrows the bounds, and tells how many seconds that took."""
        begun = time.monotonic()
        narrow_bounds(self.given, as_array(bonds, "uint32"), low, high)
        return time.monotonic() - begun


def enclosed(given: Any, rounds: int, known: CostBounds) -> CostBounds:
    """Bounds of the costs of all bonds, narrowed by so many ground states."""
    found = Bounds(known)
    enclose_costs(given, rounds, found.low, found.high)
    return found.kept()


def costs_of(given: Any, asked: Any, known: CostBounds, progress: Telling, threads: int) -> Any:
    """The costs of these bonds, in their order."""
    low = Search(given, asked, known, threads).run(progress).low
    if is_numpy(low):
        return read_only(low[asked])
    return whole_numbers([low[k] for k in asked], "int64", "costs")
