"""Pictures as SVG, without any other package: of a model with spins, loops, a wall, or clusters.

What is told apart by a colour is told apart by a form as well, and the colours are those of Okabe and
Ito, which colour-blind people can tell apart.
"""

from __future__ import annotations

from functools import lru_cache
from typing import TYPE_CHECKING, Any, Callable, Dict, Iterable, List, Mapping, NamedTuple, Optional, Sequence, Tuple

from ._arrays import shortened
from ._drawings import Drawing, Point
from ._loops import Loop
from ._model import Model

if TYPE_CHECKING:
    from ._types import Places

# A notebook draws answers of so many spins by itself.
LARGEST_SHOWN = 2500

_BLUE, _GREEN, _PURPLE, _SKY = "#0072B2", "#009E73", "#CC79A7", "#56B4E9"
_ORANGE, _RED, _YELLOW, _GREY, _BLACK = "#E69F00", "#D55E00", "#F0E442", "#999999", "#222222"
_PALE = "#FBE8B6"

_LOOP_COLOURS = (_BLUE, _GREEN, _PURPLE)
_CLUSTER_COLOURS = (_BLUE, _ORANGE, _GREEN, _PURPLE, _SKY, _RED, _YELLOW)


Attributes = Dict[str, Any]


class Look(NamedTuple):
    """How large things are, in the unit of the picture."""

    cell: float
    margin: float
    spin: float
    line: float


def picture_of_ground(
    model: Model,
    spins: Any,
    loops: Sequence[Loop],
    places: Optional[Places],
    most_loops: int,
    cell: Optional[float],
    legend: bool,
) -> str:
    """A ground state with the heaviest loops of its proof."""
    canvas = _canvas(model, places, cell)
    canvas.loops(loops, most_loops)
    canvas.bonds(model.broken_by(spins))
    canvas.spins(spins.tolist())
    return canvas.text(legend)


def picture_of_wall(
    model: Model,
    spins: Any,
    wall: Sequence[int],
    difference: int,
    places: Optional[Places],
    cell: Optional[float],
    legend: bool,
) -> str:
    """A ground state with a domain wall."""
    canvas = _canvas(model, places, cell)
    canvas.bonds(model.broken_by(spins))
    canvas.wall(wall, difference)
    canvas.spins(spins.tolist())
    return canvas.text(legend)


def picture_of_clusters(
    model: Model,
    names: List[int],
    sizes: Mapping[int, int],
    places: Optional[Places],
    cell: Optional[float],
    legend: bool,
) -> str:
    """The rigid clusters, the largest by colour and form."""
    canvas = _canvas(model, places, cell)
    canvas.bonds([])
    canvas.clusters(names, sizes)
    return canvas.text(legend)


def _canvas(model: Model, places: Optional[Places], cell: Optional[float]) -> _Canvas:
    canvas = _Canvas(Drawing(model, places), None if cell is None else _size(cell))
    canvas.faces()
    return canvas


def _size(cell: Any) -> float:
    """The length of a bond in pixels."""
    try:
        size = float(cell)
    except (TypeError, ValueError):
        raise TypeError(f"cell: expected a number, not {shortened(cell)}") from None
    if not 1 <= size <= 1000:
        raise ValueError(f"cell is {shortened(cell)} (allowed: 1 to 1000)")
    return size


@lru_cache(maxsize=2**16)
def _number(value: float) -> str:
    return f"{value:.1f}".rstrip("0").rstrip(".")


def _tag(name: str, text: Optional[str] = None, **attributes: Any) -> str:
    own = "".join(f' {key.replace("_", "-")}="{value}"' for key, value in attributes.items())
    return f"<{name}{own}/>" if text is None else f"<{name}{own}>{text}</{name}>"


class _Canvas:
    """The parts of a picture, from the back to the front, and the entries of its legend."""

    def __init__(self, drawing: Drawing, cell: Optional[float]) -> None:
        self.drawing = drawing
        self.parts: List[str] = []
        self.entries: List[Tuple[str, str]] = []
        xs, ys = zip(*(drawing.places or [(0.0, 0.0)]))
        shift = [drawing.places[u][0] + step[0] for (u, _), step in zip(drawing.ends, drawing.steps)]
        self.left, self.top = min(xs), min(ys)
        self.wide, self.high = max([*xs, *shift]) - self.left, max(ys) - self.top
        length, gap = drawing.typical_length(), drawing.smallest_gap()
        extent = max(self.wide, self.high, length)
        self.scale = _scale(length, extent, gap) if cell is None else cell / length
        pixels = self.scale * length if cell is not None else min(48.0, self.scale * length)
        spin = max(2.0, min(pixels * 0.17, gap * self.scale * 0.42))
        self.look = Look(pixels, pixels * 0.6 + 4, spin, max(0.8, pixels * 0.045))

    # Where things are.

    def at(self, point: Point) -> Point:
        x, y = point
        margin = self.look.margin
        return margin + (x - self.left) * self.scale, margin + (y - self.top) * self.scale

    def line(self, bond: int) -> str:
        """A bond as a piece of a path; in the first column of a cylinder as two."""
        place, (right, down) = self.drawing.places[self.drawing.ends[bond][0]], self.drawing.steps[bond]
        way = f"l{_number(right * self.scale)} {_number(down * self.scale)}"
        starts = (self.at((place[0] + shift, place[1])) for shift in self.drawing.shifts(bond))
        return "".join(f"M{_number(x)} {_number(y)}{way}" for x, y in starts)

    def polyline(self, points: Iterable[Point]) -> str:
        return "M" + "L".join(f"{_number(x)} {_number(y)}" for x, y in map(self.at, points))

    def path(self, pieces: Iterable[str], **look: Any) -> None:
        text = "".join(pieces)
        if text:
            self.parts.append(_tag("path", d=text, **look))

    def explain(self, text: str, **look: Any) -> None:
        """An entry of the legend: a sample, drawn as a path of its own, and what it means."""
        form = look.pop("d", "M0 0h16")
        self.entries.append((_tag("path", d=form, **look), text))

    # What is drawn.

    def faces(self) -> None:
        frustrated = [face for face in self.drawing.faces if self.drawing.is_frustrated(face)]
        self.path((self.polyline(face.corners) + "Z" for face in frustrated), fill=_PALE)
        if frustrated:
            self.explain("frustrated face", d="M1 -5h14v10h-14z", fill=_PALE)

    def bonds(self, broken: List[int]) -> None:
        line, couplings = self.look.line, self.drawing.couplings
        look: Attributes = {"fill": "none", "stroke": _GREY, "stroke_width": _number(line)}
        dashed: Attributes = {
            **look,
            "stroke": _BLACK,
            "stroke_width": _number(1.3 * line),
            "stroke_dasharray": f"{_number(2.4 * line + 1)}",
        }
        thick: Attributes = {**look, "stroke": _RED, "stroke_width": _number(4 * line)}
        crossed: Attributes = {**thick, "stroke_width": _number(2 * line)}
        self.path((self.line(k) for k in broken), **{**thick, "stroke_opacity": "0.45"})
        self.path((self.line(k) for k, j in enumerate(couplings) if j > 0), **look)
        self.path((self.line(k) for k, j in enumerate(couplings) if j < 0), **dashed)
        if any(j > 0 for j in couplings):
            self.explain("coupling above 0", **look)
        if any(j < 0 for j in couplings):
            self.explain("coupling below 0", **dashed)
        self.path(map(self._cross, broken), **crossed)
        if broken:
            self.explain("broken bond", d="M0 0h16M5 -4l6 8M11 -4l-6 8", **{**crossed, "stroke_width": 2})

    def _cross(self, bond: int) -> str:
        x, y = self.drawing.middle(bond)
        arm = 0.13 * self.look.cell
        middles = [self.at((x + shift, y)) for shift in self.drawing.shifts(bond)]
        return "".join(
            f"M{_number(x - arm)} {_number(y + sign * arm)}l{_number(2 * arm)} {_number(-sign * 2 * arm)}"
            for x, y in middles
            for sign in (1, -1)
        )

    def loops(self, loops: Sequence[Loop], count: int) -> None:
        heaviest = sorted(loops, key=lambda loop: (-loop.weight, loop.bonds))[:count]
        for place, loop in enumerate(heaviest):
            look: Attributes = {
                "fill": "none",
                "stroke": _LOOP_COLOURS[place % len(_LOOP_COLOURS)],
                "stroke_width": _number(self.look.cell * (0.34 - 0.08 * (place % 3))),
                "stroke_opacity": "0.55",
                "stroke_linecap": "round",
            }
            self.path((self.line(bond) for bond in loop.bonds), **look)
            look.update(d="M3 0h10", stroke_width=8 - 2 * (place % 3))
            self.explain(f"loop of weight {loop.weight}", **look)

    def dots(self, spins: Iterable[int], width: float, colour: str) -> None:
        pieces = ("M{}h0".format(" ".join(map(_number, self.at(point)))) for point in self._points(spins))
        self.path(pieces, stroke=colour, stroke_width=_number(width), stroke_linecap="round")

    def _points(self, spins: Iterable[int]) -> List[Point]:
        """The places of spins; of the first column of a cylinder also the second ones."""
        wanted, places = set(spins), self.drawing.places
        if not self.drawing.period:
            return [places[spin] for spin in sorted(wanted)]
        again = [
            (places[u][0] + step[0], places[u][1])
            for (u, v), step in zip(self.drawing.ends, self.drawing.steps)
            if v in wanted and places[v][0] != places[u][0] + step[0]
        ]
        known = set(places)
        return [places[spin] for spin in sorted(wanted)] + [point for point in again if point not in known]

    def spins(self, values: List[int]) -> None:
        up = [spin for spin, value in enumerate(values) if value > 0]
        down = [spin for spin, value in enumerate(values) if value < 0]
        width = 2 * self.look.spin
        self.dots(up, width, _BLACK)
        self.dots(down, width, _BLACK)
        self.dots(down, width - 2 * max(1.0, self.look.line), "#FFFFFF")
        if up:
            self.explain("spin 1", d="M8 0h0", stroke=_BLACK, stroke_width=9, stroke_linecap="round")
        if down:
            ring = "M4 0a4 4 0 1 0 8 0a4 4 0 1 0 -8 0z"
            self.explain("spin -1", d=ring, stroke=_BLACK, fill="#FFFFFF", stroke_width=1.5)

    def wall(self, wall: Sequence[int], difference: int) -> None:
        sides = self.drawing.sides()
        pieces = [self._crossing(bond, [face.middle() for face in sides[bond]]) for bond in wall]
        width = max(2.5, 0.11 * self.look.cell)
        look: Attributes = {
            "fill": "none",
            "stroke": _BLUE,
            "stroke_width": _number(width),
            "stroke_linecap": "round",
            "stroke_linejoin": "round",
        }
        self.path(pieces, **look)
        text = f"the wall: {len(wall)} bonds, it costs {difference}"
        self.explain(text, **{**look, "stroke_width": 4})

    def _crossing(self, bond: int, middles: List[Point]) -> str:
        """The wall over one bond, from the middle of the face on one side to that on the other. On a
        cylinder the face in front of the first column is drawn behind the last, and there the bond is
        crossed a second time."""
        x, y = self.drawing.middle(bond)
        if not middles:
            right, down = self.drawing.steps[bond]
            return self.polyline([(x - down / 2, y + right / 2), (x + down / 2, y - right / 2)])
        period = self.drawing.period
        beside: Dict[int, List[Point]] = {}
        for point in middles:
            shift = period if period and point[0] - x > 1.5 else 0
            beside.setdefault(shift, []).append(point)
        return "".join(self._over((x + shift, y), own) for shift, own in beside.items())

    def _over(self, place: Point, middles: List[Point]) -> str:
        """Beside an outer face the wall goes on as far as it came."""
        first, (x, y) = middles[0], place
        last = middles[1] if len(middles) > 1 else (2 * x - first[0], 2 * y - first[1])
        return self.polyline([first, place, last])

    def clusters(self, names: List[int], sizes: Mapping[int, int]) -> None:
        large = [name for name, size in sizes.items() if size > 1][: len(_CLUSTER_COLOURS)]
        rest = [spin for spin, name in enumerate(names) if name not in large]
        for place, name in enumerate(large):
            self._cluster(place, name, names)
        self.dots(rest, 1.2 * self.look.spin, _GREY)
        if rest:
            self.explain(
                "spin of a smaller cluster", d="M8 0h0", stroke=_GREY, stroke_width=5, stroke_linecap="round"
            )

    def _cluster(self, place: int, name: int, names: List[int]) -> None:
        own = [spin for spin, other in enumerate(names) if other == name]
        inner = [k for k, (u, v) in enumerate(self.drawing.ends) if names[u] == name == names[v]]
        colour, form = _CLUSTER_COLOURS[place], _FORMS[place % len(_FORMS)]
        self.path(
            (self.line(k) for k in inner),
            fill="none",
            stroke=colour,
            stroke_opacity="0.45",
            stroke_width=_number(0.22 * self.look.cell),
        )
        look: Attributes = {"fill": colour, "stroke": _BLACK, "stroke_width": _number(0.7 * self.look.line)}
        self.path((form(*self.at(point), 1.3 * self.look.spin) for point in self._points(own)), **look)
        self.explain(f"cluster of {len(own)} spins", d=form(8, 0, 6), **{**look, "stroke_width": 1})

    # The whole.

    def text(self, legend: bool) -> str:
        width = self.wide * self.scale + 2 * self.look.margin
        high = self.high * self.scale + 2 * self.look.margin
        lines = self._legend(max(width, 240), high) if legend else []
        total = high + (18 * len(lines) + 8 if lines else 0)
        wide = max(width, 240) if lines else width
        head = f'<svg xmlns="http://www.w3.org/2000/svg" viewBox="0 0 {_number(wide)} {_number(total)}" '
        head += f'width="{_number(wide)}" height="{_number(total)}" font-family="sans-serif" font-size="11">'
        back = _tag("rect", width="100%", height="100%", fill="#FFFFFF")
        return "\n".join([head, back, *self.parts, *(entry for line in lines for entry in line), "</svg>"])

    def _legend(self, width: float, high: float) -> List[List[str]]:
        """The entries, as many to a line as have room."""
        lines: List[List[str]] = [[]]
        x, y = 10.0, high + 6
        for sample, text in self.entries:
            wide = 34 + 6.3 * len(text)
            if x + wide > width and lines[-1]:
                lines.append([])
                x, y = 10.0, y + 18
            where = f"translate({_number(x)} {_number(y)})"
            lines[-1].append(_tag("g", sample + _tag("text", text, x=22, y=4, fill=_BLACK), transform=where))
            x += wide
        return lines


def _scale(length: float, extent: float, gap: float) -> float:
    """Pixels for the unit of the drawing: so many that a bond is well seen, and that spins lie apart where
    the picture does not get too large by that."""
    usual = max(14.0, min(48.0, 720 * length / extent)) / length
    return max(usual, min(12 / gap, 900 / extent))


def _polygon(*corners: Point) -> Callable[[float, float, float], str]:
    """A form round a place, as a piece of a path, by its corners for the size 1."""

    def form(x: float, y: float, size: float) -> str:
        points = (f"{_number(x + size * a)} {_number(y + size * b)}" for a, b in corners)
        return "M" + "L".join(points) + "Z"

    return form


def _round(x: float, y: float, size: float) -> str:
    # The numbers are rounded, and the radius is to be half of the way across all the same.
    radius = round(size * 0.9, 1)
    r, d = _number(radius), _number(2 * radius)
    return f"M{_number(x - radius)} {_number(y)}a{r} {r} 0 1 0 {d} 0a{r} {r} 0 1 0 -{d} 0Z"


_FORMS: Tuple[Callable[[float, float, float], str], ...] = (
    _round,
    _polygon((-0.8, -0.8), (0.8, -0.8), (0.8, 0.8), (-0.8, 0.8)),
    _polygon((0, -1), (0.95, 0.75), (-0.95, 0.75)),
    _polygon((0, -1.1), (1.1, 0), (0, 1.1), (-1.1, 0)),
    _polygon((0, 1), (0.95, -0.75), (-0.95, -0.75)),
    _polygon(
        (-0.35, -1),
        (0.35, -1),
        (0.35, -0.35),
        (1, -0.35),
        (1, 0.35),
        (0.35, 0.35),
        (0.35, 1),
        (-0.35, 1),
        (-0.35, 0.35),
        (-1, 0.35),
        (-1, -0.35),
        (-0.35, -0.35),
    ),
    _polygon((-1, 0), (-0.5, -0.87), (0.5, -0.87), (1, 0), (0.5, 0.87), (-0.5, 0.87)),
)
