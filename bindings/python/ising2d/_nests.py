"""Nests of regions: proofs of linear size that no assignment has less energy."""

from __future__ import annotations

from dataclasses import dataclass
from typing import TYPE_CHECKING, Any, ClassVar, Iterator

from ._arrays import numbers

if TYPE_CHECKING:
    from ._types import UInt32Array, UInt64Array


@dataclass(frozen=True, eq=False, repr=False)
class Nest:
    """A nest of regions over the faces, as four arrays.

    ``parents`` and ``radii`` have for each region the later one that it is a part of, ``Nest.NONE`` if
    there is none, and its radius, in quarters of the unit of the couplings. ``regions`` and ``at_radii``
    have for each face the region that took it, or ``Nest.NONE``, and the radius at which that did. All
    radii together are four times the weight of the broken bonds. The header of the library says how the
    faces are numbered, and docs/ALGORITHM.md why a nest proves a ground state.

    >>> import ising2d
    >>> found = ising2d.ground("square", 2, 2, [3, 4, 2, -5], nest=True)
    >>> int(sum(found.nest.radii)), found.broken()
    (8, [2])
    >>> parents, radii, regions, at_radii = found.nest
    """

    parents: UInt32Array
    radii: UInt64Array
    regions: UInt32Array
    at_radii: UInt64Array

    NONE: ClassVar[int] = 2**32 - 1

    def __iter__(self) -> Iterator[Any]:
        return iter((self.parents, self.radii, self.regions, self.at_radii))

    def __eq__(self, other: object) -> bool:
        if not isinstance(other, Nest):
            return NotImplemented
        return all(one.tolist() == two.tolist() for one, two in zip(self, other))

    def __hash__(self) -> int:
        return hash(tuple(tuple(own.tolist()) for own in self))

    def __repr__(self) -> str:
        return f"<nest of {len(self.radii)} regions over {len(self.regions)} faces>"


def nest_of(given: Any) -> Nest:
    """What is stated as a nest, as the library takes it."""
    try:
        parents, radii, regions, at_radii = given
    except (TypeError, ValueError):
        raise TypeError(f"nest: expected a Nest or four lists, not {given!r:.60}") from None
    return Nest(
        numbers(parents, "uint32", "parents of the nest"),
        numbers(radii, "uint64", "radii of the nest"),
        numbers(regions, "uint32", "regions of the nest"),
        numbers(at_radii, "uint64", "radii of the nest"),
    )
