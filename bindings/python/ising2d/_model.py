"""Spins and bonds with their couplings: what can be said of them without solving anything.

A lattice and a graph are models. The answers know the model that they are of.
"""

from __future__ import annotations

from typing import (
    TYPE_CHECKING,
    Any,
    Dict,
    Hashable,
    Iterable,
    List,
    Mapping,
    Optional,
    Sequence,
    TypeVar,
)

from . import _ffi
from ._arrays import is_numpy, numpy, whole_numbers
from ._labels import ByLabel
from ._real import Scale
from ._sequences import Lists, Pairs
from ._threads import ONE_STATE, interruptible
from ._verdicts import Verdict

if TYPE_CHECKING:
    from ._types import Int64Array, Integers, Point, Whole


Value = TypeVar("Value")


class Model:
    """Spins, numbered from 0 to ``n - 1``, and bonds with their couplings. It is not changed:
    ``with_couplings`` makes another one. ``scale`` is that of real couplings that were rounded, else
    None."""

    n: int
    couplings: Int64Array
    scale: Optional[Scale]

    def __setattr__(self, name: str, value: object) -> None:
        raise AttributeError(f"a {type(self).__name__} is immutable: with_couplings makes another one")

    def __delattr__(self, name: str) -> None:
        raise AttributeError(f"a {type(self).__name__} is immutable")

    def _set(self, **members: object) -> None:
        """Sets members, once, when the model is made."""
        self.__dict__.update(members)

    # What the library takes.

    def _tables(self) -> _ffi.Tables:
        """The ends, the darts and the seam as arrays."""
        raise NotImplementedError

    def _numbers_within(self, most: int) -> _ffi.Numbers:
        """The graph as the library takes it, if it has at most so many spins."""
        raise NotImplementedError

    def _spin_room(self) -> int:
        """The number of spins, or the largest that is allowed."""
        return min(self.n, _ffi.MOST_SPINS)

    def as_json(self) -> Dict[str, object]:
        """The instance as an object of JSON, which the program reads."""
        raise NotImplementedError

    def _shown(self, number: int, kept: Sequence[int]) -> Optional[str]:
        """The value that a refusal is about."""
        raise NotImplementedError

    def _with(self, couplings: Any, scale: Optional[Scale]) -> Any:
        """The same bonds with other couplings, which are known to be whole numbers."""
        raise NotImplementedError

    # Spins and bonds.

    def ends(self) -> Pairs:
        """The two spins of each bond: a sequence of pairs, or by ``numpy.asarray`` an array of shape
        ``(bonds, 2)``."""
        return Pairs(self._tables().ends)

    def darts(self) -> Lists:
        """The darts of each spin in cyclic order, a sequence of lists: bond k has the darts 2k and
        2k + 1."""
        tables = self._tables()
        return Lists(tables.starts, tables.darts)

    def seam_bonds(self) -> List[int]:
        """The bonds whose signs are changed for the wall."""
        found: List[int] = self._tables().seam.tolist()
        return found

    def node_labels(self) -> Sequence[Hashable]:
        """The label of each spin."""
        raise NotImplementedError

    def edge_labels(self) -> Sequence[Hashable]:
        """The label of each bond."""
        raise NotImplementedError

    def places(self) -> Optional[List[Point]]:
        """Where each spin is drawn, to the east and to the south, or None if that is not known."""
        return None

    def has_places(self) -> bool:
        """Whether it is known where each spin is drawn."""
        return self.places() is not None

    def period(self) -> int:
        """The distance between the two copies of the first column of a cylinder; 0 of all else."""
        return 0

    def title(self) -> str:
        """What it is, in a few words."""
        return f"{self.n} spins and {len(self.couplings)} bonds"

    def by_node(self, values: Iterable[Value]) -> Mapping[Hashable, Value]:
        """Values, one for each spin, by the labels of the spins: a mapping that is equal to a dictionary
        and is computed on access. ``dict`` of it is a dictionary."""
        return _paired(self.node_labels(), values, "spins")

    def by_edge(self, values: Iterable[Value]) -> Mapping[Hashable, Value]:
        """Values, one for each bond, by the labels of the bonds: a mapping, as ``by_node``."""
        return _paired(self.edge_labels(), values, "bonds")

    def named(self, bonds: Iterable[int]) -> List[Hashable]:
        """The labels of bonds by their numbers, as of those that are broken, or of a wall."""
        labels, listed = self.edge_labels(), list(bonds)
        # For many bonds it is faster to make all labels at once.
        known = list(labels) if 8 * len(listed) > len(labels) else labels
        return [known[k] for k in listed]

    # Energies.

    def _values_of(self, spins: Any) -> Any:
        """Any values of the spins, one for each, as an array."""
        own = whole_numbers(spins, "int8", "spins")
        if len(own) != self.n:
            raise ValueError(f"there are {len(own)} values, and {self.n} spins")
        return own

    def _products(self, spins: Any) -> Any:
        """For each bond the product of its two spins, as an array of numpy."""
        ends = self._tables().ends
        wide = spins.astype("int64")
        return wide[ends[::2]] * wide[ends[1::2]]

    def energy_of(self, spins: Integers) -> int:
        """The energy of any spins, in plain arithmetic: minus the sum of coupling times both spins."""
        own = self._values_of(spins)
        if is_numpy(own) and is_numpy(self.couplings) and self._sum_of_sizes() < 2.0**46:
            found: int = -int((self._products(own) * self.couplings).sum())
            return found
        values: List[int] = own.tolist()
        couplings: List[int] = self.couplings.tolist()
        return -sum(j * values[u] * values[v] for (u, v), j in zip(self.ends(), couplings))

    def _sum_of_sizes(self) -> float:
        """The sum of the sizes of all couplings, nearly."""
        return float(numpy.abs(self.couplings.astype("float64")).sum())

    def broken_by(self, spins: Integers) -> List[int]:
        """The bonds that the spins do not satisfy: coupling times both spins is below 0."""
        own = self._values_of(spins)
        if is_numpy(own) and is_numpy(self.couplings):
            found: List[int] = numpy.flatnonzero(
                numpy.sign(self.couplings) * self._products(own) < 0
            ).tolist()
            return found
        values, couplings = own.tolist(), self.couplings.tolist()
        return [k for k, ((u, v), j) in enumerate(zip(self.ends(), couplings)) if j * values[u] * values[v] < 0]

    def _between(self, one: Any, other: Any) -> List[int]:
        """The bonds that one assignment satisfies and the other, with the seam's signs changed, breaks."""
        if is_numpy(one):
            unlike = self._products(one) != self._products(other)
            unlike[self._tables().seam] ^= True
            found: List[int] = numpy.flatnonzero(unlike).tolist()
            return found
        turned, first, second = set(self.seam_bonds()), one.tolist(), other.tolist()
        return [
            k
            for k, (u, v) in enumerate(self.ends())
            if (first[u] * first[v] != second[u] * second[v]) != (k in turned)
        ]

    def _unlike(self, spins: Any) -> List[int]:
        """The bonds between opposite spins."""
        if is_numpy(spins):
            found: List[int] = numpy.flatnonzero(self._products(spins) < 0).tolist()
            return found
        values = spins.tolist()
        return [k for k, (u, v) in enumerate(self.ends()) if values[u] != values[v]]

    def _negated(self) -> Any:
        """The couplings with their signs changed."""
        own = self.couplings
        if is_numpy(own) and (not own.size or int(own.min()) > -(2**63)):
            return -own
        return whole_numbers([-j for j in own.tolist()], "int64", "couplings")

    def _seam_changed(self) -> Any:
        """The couplings with the signs of the seam's changed."""
        own = whole_numbers(self.couplings, "int64", "couplings")
        for bond in self.seam_bonds():
            own[bond] = -int(own[bond])
        return own

    def check(
        self,
        energy: Whole,
        spins: Integers,
        loops: Iterable[object] = (),
        nest: Optional[Iterable[object]] = None,
    ) -> Verdict:
        """The verdict on a proof: the energy in the unit of the couplings, the spins of shape
        ``(spins,)``, and any loops, for which the graph need not be planar; or a nest, for which it has
        to be, and then the loops are not looked at. Rounded real couplings are judged as whole ones."""
        long = self._spin_room() > ONE_STATE
        if nest is not None:
            regions = _ffi.nest_proof_of(energy, spins, nest)
            return Verdict(*interruptible(long, _ffi.nest_check_of, self, regions), of="nest")
        stated = _ffi.proof_of(energy, spins, loops)
        return Verdict(*interruptible(long, _ffi.check_of, self, stated))


def _paired(labels: Sequence[Hashable], values: Any, what: str) -> ByLabel[Hashable, Any]:
    found: ByLabel[Hashable, Any] = ByLabel(labels, values)
    if len(found) != len(labels):
        raise ValueError(f"there are {len(found)} values, and {len(labels)} {what}")
    return found
