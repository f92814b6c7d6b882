"""Droplets: the cheapest excitation that flips a bond, found by one more ground state, in which the bond is
forced to flip."""

from __future__ import annotations

from collections import deque
from dataclasses import dataclass
from typing import TYPE_CHECKING, Any, List, Tuple

from ._answers import Ground
from ._arrays import as_array, is_numpy, numpy, read_only
from ._model import Model
from ._verdicts import Answer

if TYPE_CHECKING:
    from ._types import UInt32Array

# Up to so many spins a search spin by spin takes less than one by arrays.
_FEW = 20000


def forcing(given: Model, bond: int, spins: Any) -> int:
    """A coupling of the bond with which every ground state flips it, compared with these spins.

    Its size exceeds the sum of all other couplings at one end of the bond. So if it were not satisfied,
    flipping that spin would lower the energy. The energies of all states with the bond flipped change by
    the same amount, so a ground state of the changed instance has the least energy among them.
    """
    tables = given._tables()
    first, second = int(tables.ends[2 * bond]), int(tables.ends[2 * bond + 1])
    strong = 1 + min(_strength_at(given, spin, bond) for spin in (first, second))
    return -int(spins[first]) * int(spins[second]) * strong


def _strength_at(given: Model, spin: int, bond: int) -> int:
    """The sum of the sizes of all couplings at a spin, without that of the bond."""
    tables = given._tables()
    own = tables.darts[int(tables.starts[spin]) : int(tables.starts[spin + 1])]
    return sum(abs(int(given.couplings[dart // 2])) for dart in own.tolist() if dart // 2 != bond)


@dataclass(frozen=True, eq=False, repr=False)
class Droplet(Answer):
    """The cheapest excitation that flips a bond: its cost; the spins that flip, an array of their numbers,
    one end of the bond among them; and the bonds of their border, which flip. ``ground`` is the ground
    state that it starts from, and ``forced`` that of the instance in which the bond is forced to flip, each
    with its proof, so ``check`` judges the cost. The spins that flip are connected, and so are the other
    spins of the component.

    >>> import ising2d
    >>> found = ising2d.Lattice("square", 2, 3, [3, 4, 2, 5, 1, 2, 3]).droplet(0)
    >>> found.cost, found.spins.tolist(), found.border, found.length, bool(found.check())
    (8, [0], (0, 4), 2, True)
    """

    bond: int
    cost: int
    spins: UInt32Array
    border: Tuple[int, ...]
    ground: Ground
    forced: Ground

    @property
    def length(self) -> int:
        """The number of bonds of its border."""
        return len(self.border)

    @classmethod
    def between(cls, bond: int, ground: Ground, forced: Ground) -> Droplet:
        """The droplet of a bond by the two ground states."""
        model = ground._known()
        cost = model.energy_of(forced.spins) - ground.energy
        turned = _one_side(model, bond, ground.spins, forced.spins)
        return cls(bond, cost, turned, tuple(_border(model, turned)), ground, forced)

    def check(self) -> bool:
        """Whether both proofs hold, and the droplet has this cost and flips the bond."""
        model, forced = self.ground._known(), self.forced._known()
        spins = self.ground.spins.tolist()
        for spin in self.spins.tolist():
            spins[spin] = -spins[spin]
        couplings, changed = model.couplings.tolist(), forced.couplings.tolist()
        others = couplings[: self.bond] + couplings[self.bond + 1 :] == changed[: self.bond] + changed[self.bond + 1 :]
        strength = min(_strength_at(model, spin, self.bond) for spin in model.ends()[self.bond])
        is_forced = others and abs(changed[self.bond]) > strength
        return (
            bool(self.ground.check())
            and bool(self.forced.check())
            and is_forced
            and self.bond in self.border
            and model.energy_of(spins) - self.ground.energy == self.cost
            and forced.energy_of(spins) == self.forced.energy
        )

    def __repr__(self) -> str:
        return f"<droplet of bond {self.bond}: {len(self.spins)} spins, border {self.length}, cost {self.cost}>"


def _one_side(given: Model, bond: int, one: Any, other: Any) -> Any:
    """The smaller of two connected sets, joined by the bond, that together are its component. All other
    differences between the two states cost nothing."""
    ends = given._tables().ends
    first, second = int(ends[2 * bond]), int(ends[2 * bond + 1])
    differs = _unlike(one, other)
    start, beyond = (first, second) if differs[first] else (second, first)
    inner = reached(given, start, _not(differs))
    outer = reached(given, beyond, inner)
    whole = reached(given, start, _none(given.n))
    filled = _without(whole, outer)
    return _places(filled) if 2 * _count(filled) <= _count(whole) else _places(outer)


def _border(given: Model, turned: Any) -> List[int]:
    """The bonds between these spins and the others."""
    ends = given._tables().ends
    if is_numpy(ends):
        inside = numpy.zeros(given.n, dtype=bool)
        inside[turned] = True
        found: List[int] = numpy.flatnonzero(inside[ends[::2]] != inside[ends[1::2]]).tolist()
        return found
    own = set(turned.tolist())
    return [k for k, (u, v) in enumerate(given.ends()) if (u in own) != (v in own)]


def reached(given: Model, start: int, closed: Any) -> Any:
    """For each spin whether it can be reached from the start without closed spins."""
    if is_numpy(closed) and given.n > _FEW:
        return _reached_by_arrays(given, start, closed)
    near, shut = given._tables(), bytearray(closed)
    starts, heads = near.starts.tolist(), near.ends.tolist()
    darts = near.darts.tolist()
    seen = bytearray(given.n)
    seen[start] = 1
    waiting = deque([start])
    while waiting:
        spin = waiting.popleft()
        for dart in darts[starts[spin] : starts[spin + 1]]:
            next_one = heads[dart ^ 1]
            if not seen[next_one] and not shut[next_one]:
                seen[next_one] = 1
                waiting.append(next_one)
    return numpy.frombuffer(bytes(seen), dtype=bool) if is_numpy(closed) else seen


def _reached_by_arrays(given: Model, start: int, closed: Any) -> Any:
    """The same, all spins of one distance at once."""
    tables = given._tables()
    heads = tables.ends[tables.darts ^ 1]
    starts = tables.starts.astype("int64")
    free = ~closed
    free[start] = True
    front = numpy.array([start])
    free[front] = False
    seen = numpy.zeros(given.n, dtype=bool)
    while front.size:
        seen[front] = True
        first, count = starts[front], starts[front + 1] - starts[front]
        before = numpy.cumsum(count) - count
        places = numpy.arange(int(count.sum())) + numpy.repeat(first - before, count)
        near = heads[places]
        front = numpy.unique(near[free[near]])
        free[front] = False
    return seen


# Sets of spins: arrays of bools by numpy, and bytes without it.


def _unlike(one: Any, other: Any) -> Any:
    return one != other if is_numpy(one) else bytearray(a != b for a, b in zip(one, other))


def _not(own: Any) -> Any:
    return ~own if is_numpy(own) else bytearray(not value for value in own)


def _none(count: int) -> Any:
    return numpy.zeros(count, dtype=bool) if numpy is not None else bytearray(count)


def _without(one: Any, other: Any) -> Any:
    return one & ~other if is_numpy(one) else bytearray(a and not b for a, b in zip(one, other))


def _count(own: Any) -> int:
    return int(own.sum()) if is_numpy(own) else sum(own)


def _places(own: Any) -> Any:
    if is_numpy(own):
        return read_only(numpy.flatnonzero(own).astype("uint32"))
    return as_array([spin for spin, value in enumerate(own) if value], "uint32")
