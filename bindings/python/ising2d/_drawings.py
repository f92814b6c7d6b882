"""Drawings: where each bond lies, and the faces that they enclose."""

from __future__ import annotations

import importlib
import math
from collections.abc import Mapping
from typing import TYPE_CHECKING, Any, Dict, List, NamedTuple, Optional, Tuple

from ._model import Model

if TYPE_CHECKING:
    from ._types import Places

Point = Tuple[float, float]


class Face(NamedTuple):
    """A face that is enclosed: its bonds, and its corners in order."""

    bonds: List[int]
    corners: List[Point]

    def middle(self) -> Point:
        count = len(self.corners)
        return sum(x for x, _ in self.corners) / count, sum(y for _, y in self.corners) / count


class Drawing:
    """An instance with the places of its spins."""

    def __init__(self, model: Model, places: Optional[Places] = None) -> None:
        self.model, self.couplings = model, model.couplings.tolist()
        self.ends = list(model.ends())
        self.places = places_of(model, places)
        # How far the second first column of a cylinder is from the first; 0 of all else.
        self.period = model.period() if places is None else 0
        self.last_column = max(x for x, _ in self.places) if self.period else 0.0
        self.steps = [self._step(k) for k in range(len(self.ends))]
        self.faces = self._enclosed()

    def _step(self, bond: int) -> Point:
        """The way along a bond from its first end. Over the seam of a cylinder it goes on to the east,
        to where its first column is drawn again."""
        (x, y), (right, low) = (self.places[spin] for spin in self.ends[bond])
        if self.period and right < x:
            return 1.0, 0.0
        return right - x, low - y

    def middle(self, bond: int) -> Point:
        (x, y), (right, down) = self.places[self.ends[bond][0]], self.steps[bond]
        return x + right / 2, y + down / 2

    def shifts(self, bond: int) -> List[float]:
        """How far to the east a bond is drawn: in the first column of a cylinder it is drawn twice."""
        if self.period and all(self.places[spin][0] == 0 for spin in self.ends[bond]):
            return [0.0, float(self.period)]
        return [0.0]

    def typical_length(self) -> float:
        """The middle one of the lengths of all bonds."""
        lengths = sorted((right**2 + down**2) ** 0.5 for right, down in self.steps)
        middle = float(lengths[len(lengths) // 2]) if lengths else 0.0
        return middle if middle > 0 else 1.0

    def smallest_gap(self) -> float:
        """The least distance of two spins that do not lie at one place; if there are none, a bond's."""
        least = size = self.typical_length()
        cells: Dict[Tuple[int, int], List[Point]] = {}
        for point in set(self.places):
            # Of all points before, those within a cell's size lie in the nine cells about this one.
            own = math.floor(point[0] / size), math.floor(point[1] / size)
            gaps = [math.dist(point, other) for other in _around(cells, own)]
            least = min(least, *gaps) if gaps else least
            cells.setdefault(own, []).append(point)
            if least < size / 2:
                size = least
                cells = _regridded(cells, size)
        return least

    def _orbits(self) -> List[List[int]]:
        """The darts round each face: over the bond, and on to the next dart of the spin there."""
        after: Dict[int, int] = {}
        for own in self.model.darts():
            for place, dart in enumerate(own):
                after[dart ^ 1] = own[(place + 1) % len(own)]
        orbits, seen = [], set()
        for first in after:
            orbit, dart = [], first
            while dart not in seen:
                seen.add(dart)
                orbit.append(dart)
                dart = after[dart]
            if orbit:
                orbits.append(orbit)
        return orbits

    def _way(self, orbit: List[int]) -> Tuple[List[Point], Point]:
        """The corners from the first dart on, and where the way ends."""
        x, y = self.places[self.ends[orbit[0] // 2][orbit[0] % 2]]
        corners = []
        for dart in orbit:
            corners.append((x, y))
            right, down = self.steps[dart // 2]
            sign = 1 if dart % 2 == 0 else -1
            x, y = x + sign * right, y + sign * down
        return corners, (x, y)

    def _enclosed(self) -> List[Face]:
        """The faces but the outer ones, which go round the other way, and the rims of a cylinder."""
        found = []
        for orbit in self._orbits():
            start = max(range(len(orbit)), key=lambda i: self.places[self.ends[orbit[i] // 2][orbit[i] % 2]])
            if self._wraps(orbit):
                start = next(i for i, dart in enumerate(orbit) if self._leaves_last_column(dart))
            corners, last = self._way(orbit[start:] + orbit[:start])
            if abs(last[0] - corners[0][0]) + abs(last[1] - corners[0][1]) < 1e-6:
                found.append((_area(corners), Face([dart // 2 for dart in orbit], corners)))
        turn = self._turn([area for area, _ in found])
        return [face for area, face in found if area * turn > 1e-9]

    def _turn(self, areas: List[float]) -> int:
        """The sign of the area of enclosed faces: the outer faces have the others' sign, and as much
        area as all others together; on a cylinder there are none."""
        if self.period:
            return 1 if sum(areas) > 0 else -1
        outer = max(areas, key=abs, default=0.0)
        return -1 if outer > 0 else 1

    def _wraps(self, orbit: List[int]) -> bool:
        return self.period > 0 and any(self._is_seam(dart // 2) for dart in orbit)

    def _is_seam(self, bond: int) -> bool:
        u, v = self.ends[bond]
        return self.places[v][0] < self.places[u][0]

    def _leaves_last_column(self, dart: int) -> bool:
        spin = self.ends[dart // 2][dart % 2]
        is_last: bool = self.places[spin][0] == self.last_column
        return is_last

    def sides(self) -> List[List[Face]]:
        """For each bond the enclosed faces beside it, perhaps one of them twice."""
        found: List[List[Face]] = [[] for _ in self.ends]
        for face in self.faces:
            for bond in face.bonds:
                found[bond].append(face)
        return found

    def is_frustrated(self, face: Face) -> bool:
        """Whether an odd number of the couplings round the face is negative."""
        negative: int = sum(self.couplings[bond] < 0 for bond in face.bonds)
        return negative % 2 == 1


def _area(corners: List[Point]) -> float:
    """The area that is gone round, by its sign with or against the clock."""
    turned = corners[1:] + corners[:1]
    return sum(x * b - a * y for (x, y), (a, b) in zip(corners, turned)) / 2


def _around(cells: Dict[Tuple[int, int], List[Point]], own: Tuple[int, int]) -> List[Point]:
    """The points in a cell and in the eight about it."""
    x, y = own
    return [
        point for i in (x - 1, x, x + 1) for j in (y - 1, y, y + 1) for point in cells.get((i, j), ())
    ]


def _regridded(
    cells: Dict[Tuple[int, int], List[Point]], size: float
) -> Dict[Tuple[int, int], List[Point]]:
    """The same points in cells of another size."""
    found: Dict[Tuple[int, int], List[Point]] = {}
    for points in cells.values():
        for x, y in points:
            found.setdefault((math.floor(x / size), math.floor(y / size)), []).append((x, y))
    return found


def places_of(model: Model, places: Optional[Places]) -> List[Point]:
    """Where each spin is drawn: as handed in, by spin or by label; as the model knows; or as networkx
    finds it from the rotation."""
    given: Any = places
    if isinstance(given, Mapping):
        given = [_place(given, label) for label in model.node_labels()]
    if given is None:
        given = model.places()
    if given is None:
        given = _laid_out(model)
    found = [(float(x), float(y)) for x, y in given]
    if len(found) != model.n:
        raise ValueError(f"there are {len(found)} places, and {model.n} spins")
    return found


def _place(places: Mapping[Any, Any], label: Any) -> Any:
    if label not in places:
        raise ValueError(f"places: there is none for {label!r}")
    return places[label]


def _laid_out(model: Model) -> List[Point]:
    """The places of ``networkx.planar_layout``, for the drawing that the model has."""
    try:
        networkx = importlib.import_module("networkx")
    except ImportError:
        raise ValueError("where are the spins? give places=.., or install networkx") from None
    ends = list(model.ends())
    around: Dict[int, List[int]] = {}
    for spin, own in enumerate(model.darts()):
        others = [ends[dart // 2][1 - dart % 2] for dart in own]
        around[spin] = list(dict.fromkeys(others))
    embedding = networkx.PlanarEmbedding()
    embedding.set_data(around)
    found = networkx.combinatorial_embedding_to_pos(embedding)
    return [found[spin] for spin in range(len(around))]
