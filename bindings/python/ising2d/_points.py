"""Straight-line drawings: the cyclic order of the darts at each point, or two bonds that cross.

A sweep from left to right over the points keeps the bonds that cross the sweep line, in their order from
below; two bonds cross if and only if two that become neighbours there do (Shamos and Hoey 1976). At each
point the bonds that end there leave the list and those that begin there enter it, so both lists are in
angular order, and together they are the darts of the point, counter-clockwise. All tests are signs of
whole numbers: coordinates are multiplied by their common denominator first. It takes O(m log m) tests.
"""

from __future__ import annotations

import math
from fractions import Fraction
from functools import cmp_to_key
from typing import TYPE_CHECKING, Any, Dict, List, NamedTuple, Sequence, Tuple

from ._arrays import is_numpy, listed_of, refuse_unordered, shortened
from ._errors import NotPlanar, RefusalCode
from ._real import real_number

if TYPE_CHECKING:
    from ._types import Points

Place = Tuple[int, int]
_ALLOWED = "a drawing without crossings"


def exact_places(points: Points) -> List[Place]:
    """The points with whole coordinates, all multiplied by one number. Raises ``TypeError`` and
    ``ValueError`` for what are no points of the plane."""
    refuse_unordered(points, "points")
    pairs = [_pair(point, place) for place, point in enumerate(_rows(points))]
    if all(type(value) is int for pair in pairs for value in pair):
        return pairs
    exact = [(Fraction(x), Fraction(y)) for x, y in pairs]
    common = math.lcm(*{value.denominator for pair in exact for value in pair})
    return [(int(x * common), int(y * common)) for x, y in exact]


def _rows(points: Any) -> List[Any]:
    if is_numpy(points):
        if points.ndim != 2 or points.shape[1] != 2:
            raise TypeError(f"points: expected an array of shape (spins, 2), not {points.shape}")
        return listed_of(points.tolist(), "points")
    return listed_of(points, "points")


def _pair(point: Any, place: int) -> Tuple[Any, Any]:
    if isinstance(point, (str, bytes)) or not hasattr(point, "__len__") or len(point) != 2:
        raise TypeError(f"points: expected two coordinates, not {shortened(point)}")
    x, y = (real_number(value, f"point {place}") for value in point)
    return x, y


class _Segment(NamedTuple):
    """The bonds between two points, which lie side by side if there are several."""

    left: int
    right: int
    bonds: Tuple[int, ...]


def rotation_of(places: Sequence[Place], bonds: Sequence[Tuple[int, int]]) -> List[List[int]]:
    """For each point its darts in counter-clockwise order. Raises ``NotPlanar`` for points or bonds that
    meet elsewhere than at the ends of bonds, and names two of them."""
    return _Sweep(places, bonds).rotation()


class _Sweep:
    """The points from left to right, and the segments over the sweep line from below."""

    def __init__(self, places: Sequence[Place], bonds: Sequence[Tuple[int, int]]) -> None:
        self.places, self.bonds = places, bonds
        self.active: List[_Segment] = []
        self.begun: Dict[int, List[_Segment]] = {}
        between: Dict[Tuple[int, int], List[int]] = {}
        for k, (u, v) in enumerate(bonds):
            between.setdefault((u, v) if places[u] < places[v] else (v, u), []).append(k)
        for (u, v), own in between.items():
            self.begun.setdefault(u, []).append(_Segment(u, v, tuple(own)))

    def rotation(self) -> List[List[int]]:
        order = sorted(range(len(self.places)), key=self.places.__getitem__)
        for one, other in zip(order, order[1:]):
            if self.places[one] == self.places[other]:
                raise _refused(f"points {min(one, other)} and {max(one, other)} lie at one place")
        darts: List[List[int]] = [[] for _ in self.places]
        for point in order:
            darts[point] = self._pass(point)
        return darts

    def _pass(self, point: int) -> List[int]:
        """Goes over a point, and returns its darts."""
        first = self._first_not_below(point)
        last = first
        while last < len(self.active) and self._side(self.active[last], point) == 0:
            if self.active[last].right != point:
                raise self._lies_on(point, self.active[last])
            last += 1
        ended, begun = self.active[first:last], self._from(point)
        self.active[first:last] = begun
        if begun:
            self._part(first - 1, first)
            self._part(first + len(begun) - 1, first + len(begun))
        else:
            self._part(first - 1, first)
        # Counter-clockwise: those to the right from below, then those to the left from above.
        return [dart for own in begun + ended[::-1] for dart in self._darts(own, point)]

    def _first_not_below(self, point: int) -> int:
        """The place of the first segment that the point is not above."""
        low, high = 0, len(self.active)
        while low < high:
            middle = (low + high) // 2
            if self._side(self.active[middle], point) > 0:
                low = middle + 1
            else:
                high = middle
        return low

    def _side(self, own: _Segment, point: int) -> int:
        """Above 0 for a point above a segment, below 0 for one below it, and 0 on it."""
        return _turn(self.places[own.left], self.places[own.right], self.places[point])

    def _from(self, point: int) -> List[_Segment]:
        """The segments that begin at a point, from below."""
        own = self.begun.get(point, [])
        if len(own) > 1:
            here = self.places[point]

            def order(one: _Segment, other: _Segment) -> int:
                return -_sign(_turn(here, self._end(one), self._end(other)))

            own = sorted(own, key=cmp_to_key(order))
            for one, other in zip(own, own[1:]):
                if _turn(here, self._end(one), self._end(other)) == 0:
                    raise self._refused_pair(one, other, "overlap")
        return own

    def _end(self, own: _Segment) -> Place:
        return self.places[own.right]

    def _darts(self, own: _Segment, point: int) -> List[int]:
        """The darts of a segment at one of its ends. Of bonds side by side the order at one end is the
        reverse of that at the other."""
        side = [2 * k + (self.bonds[k][0] != point) for k in own.bonds]
        return side if point == own.left else side[::-1]

    def _part(self, below: int, above: int) -> None:
        """Raises ``NotPlanar`` if two neighbours cross."""
        if below < 0 or above >= len(self.active):
            return
        one, other = self.active[below], self.active[above]
        ends = {one.left, one.right} & {other.left, other.right}
        if not ends and self._cross(one, other):
            raise self._refused_pair(one, other, "cross")

    def _cross(self, one: _Segment, other: _Segment) -> bool:
        """Whether two segments without a common end meet; one that ends on the other is met there."""
        first = _sign(self._side(one, other.left)) * _sign(self._side(one, other.right))
        second = _sign(self._side(other, one.left)) * _sign(self._side(other, one.right))
        return first < 0 and second < 0

    def _lies_on(self, point: int, own: _Segment) -> NotPlanar:
        return _refused(f"point {point} lies on bond {own.bonds[0]}")

    def _refused_pair(self, one: _Segment, other: _Segment, what: str) -> NotPlanar:
        first, second = sorted((one.bonds[0], other.bonds[0]))
        return _refused(f"bonds {first} and {second} {what}")


def _turn(a: Place, b: Place, c: Place) -> int:
    """Twice the area of the triangle: above 0 where c lies to the left of the way from a to b."""
    return (b[0] - a[0]) * (c[1] - a[1]) - (b[1] - a[1]) * (c[0] - a[0])


def _sign(value: int) -> int:
    return (value > 0) - (value < 0)


def _refused(sentence: str) -> NotPlanar:
    return NotPlanar(RefusalCode.NOT_PLANAR, (), words=(sentence, _ALLOWED))
