#!/usr/bin/env python3
"""Draws docs/pictures/nest.svg, the nest of docs/ALGORITHM.md: its regions from above, and the heights of
all regions over two edges and a way of two. Every number on it is worked out here from the nest, by the
definitions of crates/sg_nest/specs/Nest.antt, and that the nest proves the join is asserted before anything
is drawn. It needs Python alone, and gives the same file on every machine.

    python3 docs/pictures/nest.py
"""
import math
import pathlib

# The web: edges between named nodes, with their weights; the terminals, and the join that is to be proved.
EDGES = {("a", "b"): 2, ("a", "c"): 2, ("b", "c"): 2, ("a", "x"): 3, ("x", "d"): 2}
TERMINALS = "abcd"
JOIN = [("b", "c"), ("a", "x"), ("x", "d")]
# The nest: for each region its radius and the region that it is a part of; for each node its place.
REGIONS = {"A": (4, "r"), "B": (4, "r"), "C": (4, "r"), "D": (8, None), "r": (8, None)}
PLACES = {"a": ("A", 0), "b": ("B", 0), "c": ("C", 0), "d": ("D", 0), "x": ("r", 8)}

BLUE, GREEN, ORANGE, BLACK, GREY = "#0072B2", "#009E73", "#E69F00", "#222222", "#777777"
COLOURS = {"A": BLUE, "B": BLUE, "C": BLUE, "r": GREEN, "D": ORANGE}
UNIT = 9.0


def over(region):
    """The regions over a region, itself first."""
    while region is not None:
        yield region
        region = REGIONS[region][1]


def height(region, node):
    """The height of a region over a node."""
    own, at = PLACES[node]
    if region not in over(own):
        return 0
    return REGIONS[region][0] - (at if region == own else 0)


def weight(edge):
    return EDGES.get(edge, EDGES.get(edge[::-1]))


def climb(edge):
    """By how much the heights of all regions change over an edge, region by region."""
    changes = {region: abs(height(region, edge[0]) - height(region, edge[1])) for region in REGIONS}
    return {region: change for region, change in changes.items() if change}


def assert_proof():
    """The nest fits, and its radii are four times the weight of the join."""
    odd = [node for node in PLACES if sum(node in edge for edge in JOIN) % 2]
    assert sorted(odd) == sorted(TERMINALS)
    assert all(PLACES[node][1] == 0 for node in TERMINALS)
    for region in REGIONS:
        assert sum(region in over(PLACES[node][0]) for node in TERMINALS) % 2 == 1
    for edge in EDGES:
        assert sum(climb(edge).values()) <= 4 * weight(edge)
    assert sum(radius for radius, _ in REGIONS.values()) == 4 * sum(weight(edge) for edge in JOIN)


def number(value):
    return f"{value:.1f}".rstrip("0").rstrip(".")


def tag(name, text=None, **attributes):
    own = "".join(f' {key.replace("_", "-")}="{value}"' for key, value in attributes.items())
    return f"<{name}{own}/>" if text is None else f"<{name}{own}>{text}</{name}>"


def words(x, y, text, **more):
    return tag("text", text, **{"x": number(x), "y": number(y), "text_anchor": "middle", "fill": BLACK, **more})


def line(start, end, **more):
    ends = {"x1": start[0], "y1": start[1], "x2": end[0], "y2": end[1]}
    return tag("line", **{key: number(value) for key, value in ends.items()}, **more)


def shape(points, colour):
    path = "M" + "L".join(f"{number(x)} {number(y)}" for x, y in points) + "Z"
    return tag("path", d=path, fill=colour, fill_opacity=0.35, stroke=colour)


class Plan:
    """The nest from above: lengths are four times the weights."""

    def __init__(self, left, top):
        side = 4 * EDGES["b", "c"]
        back = side * math.sqrt(3) / 2
        far = 4 * EDGES["a", "x"]
        plane = {"a": (0, 0), "b": (-back, -side / 2), "c": (-back, side / 2), "x": (far, 0)}
        plane["d"] = (far + 4 * EDGES["x", "d"], 0)
        self.at = {node: (left + UNIT * x, top + UNIT * y) for node, (x, y) in plane.items()}

    def circle(self, node, radius, **more):
        x, y = self.at[node]
        return tag("circle", cx=number(x), cy=number(y), r=number(UNIT * radius), **more)

    def regions(self):
        reach = REGIONS["r"][0] + REGIONS["A"][0]
        for node in "abc":
            yield self.circle(node, reach, fill="none", stroke=GREEN, stroke_width=2)
        for node in "abc":
            yield self.circle(node, reach, fill="#DCEFE8")
        for node, region in (("a", "A"), ("b", "B"), ("c", "C"), ("d", "D")):
            colour = COLOURS[region]
            yield self.circle(node, REGIONS[region][0], fill=colour, fill_opacity=0.35, stroke=colour)

    def edges(self):
        for edge in EDGES:
            look = {"stroke": BLACK, "stroke_width": 4 if edge in JOIN else 1.2}
            yield line(self.at[edge[0]], self.at[edge[1]], **look)
        for node, (x, y) in self.at.items():
            if node in TERMINALS:
                yield self.circle(node, 0.7, fill=BLACK)
            else:
                yield self.circle(node, 0.7, fill="#FFFFFF", stroke=BLACK, stroke_width=1.5)
            aside = {"b": (-11, -3), "c": (-11, 9), "d": (13, 4)}.get(node, (7, -9))
            yield words(x + aside[0], y + aside[1], node, font_weight="bold")

    def names(self):
        for node, region in (("a", "A"), ("b", "B"), ("c", "C"), ("d", "D")):
            x, y = self.at[node]
            rim = UNIT * REGIONS[region][0]
            yield words(x, y + (16 - rim if node == "b" else rim - 8), f"radius {REGIONS[region][0]}", font_size=10)
        x, y = self.at["a"]
        yield words(x + 1, y - UNIT * 8.2, f"r, radius {REGIONS['r'][0]}", font_size=10)


class Profile:
    """The heights of all regions over a way, one upon another: along a way each falls by as much as the way
    goes on, the inner one first."""

    def __init__(self, left, foot, way):
        self.left, self.foot, self.way = left, foot, way

    def point(self, along, high):
        return self.left + UNIT * along, self.foot - UNIT * high

    def edges(self):
        """The edges of the way, each with where it begins and its length."""
        along = 0
        for edge in zip(self.way, self.way[1:]):
            length = 4 * weight(edge)
            yield edge, along, length
            along += length

    def marks(self):
        x, y = self.point(0, 0)
        yield words(x, y + 15, self.way[0], font_weight="bold")
        for edge, along, length in self.edges():
            start, end = self.point(along, 0), self.point(along + length, 0)
            yield line(start, end, stroke=BLACK)
            yield words(end[0], y + 15, edge[1], font_weight="bold")
            changes = list(climb(edge).values())
            parts = " + ".join(map(str, changes)) + " = " if len(changes) > 1 else ""
            text = f"{parts}{sum(changes)} = 4 · {weight(edge)}"
            yield words((start[0] + end[0]) / 2, y + 30, text, font_size=11)


def slope(left, foot):
    """The heights over the way from a over x to d."""
    view = Profile(left, foot, "axd")
    inner, outer = REGIONS["A"][0], REGIONS["r"][0]
    reach, end = 4 * EDGES["a", "x"], 4 * (EDGES["a", "x"] + EDGES["x", "d"])
    yield shape([view.point(*at) for at in ((0, 0), (0, outer), (inner, outer), (reach, 0))], COLOURS["r"])
    yield shape([view.point(*at) for at in ((0, outer), (0, outer + inner), (inner, outer))], COLOURS["A"])
    yield shape([view.point(*at) for at in ((reach, 0), (end, REGIONS["D"][0]), (end, 0))], COLOURS["D"])
    yield from view.marks()
    for high in (outer, outer + inner):
        x, y = view.point(0, high)
        yield words(x - 6, y + 4, str(high), text_anchor="end", font_size=11)
    x, y = view.point(end, REGIONS["D"][0])
    yield words(x + 6, y + 4, str(REGIONS["D"][0]), text_anchor="start", font_size=11)


def saddle(left, foot):
    """The heights over the edge from b to c."""
    view = Profile(left, foot, "bc")
    own, base, end = REGIONS["B"][0], REGIONS["r"][0], 4 * EDGES["b", "c"]
    yield shape([view.point(*at) for at in ((0, 0), (0, base), (end, base), (end, 0))], COLOURS["r"])
    yield shape([view.point(*at) for at in ((0, base), (0, base + own), (own, base))], COLOURS["B"])
    yield shape([view.point(*at) for at in ((own, base), (end, base + own), (end, base))], COLOURS["C"])
    yield from view.marks()


def drawing():
    plan = Plan(180, 160)
    yield '<svg xmlns="http://www.w3.org/2000/svg" viewBox="0 0 700 360" width="700" height="360" font-family="sans-serif" font-size="12">'
    yield tag("rect", width="100%", height="100%", fill="#FFFFFF")
    for part in (plan.regions(), plan.edges(), plan.names(), slope(480, 152), saddle(510, 312)):
        yield from part
    yield words(225, 346, "from above: lengths are four times the weights, the join is drawn heavy", fill=GREY, font_size=11)
    yield words(570, 22, "heights over a, x and d, one upon another", fill=GREY, font_size=11)
    yield words(640, 260, "and over b and c", fill=GREY, font_size=11)
    yield "</svg>"


if __name__ == "__main__":
    assert_proof()
    text = "\n".join(drawing()) + "\n"
    (pathlib.Path(__file__).resolve().parent / "nest.svg").write_text(text, encoding="utf-8")
