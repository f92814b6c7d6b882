"""What can be taken away as text: an instance as records, as JSON or as Python, and its proof as JSON."""

import json
from typing import Any, Callable, Dict, Iterable, List, Tuple

from .. import Instance, Lattice

_A_LINE = 16
# The four lists of a nest.
NEST = ("parents", "radii", "regions", "at_radii")


def _in_lines(values: Iterable[Any], indent: str = "") -> List[str]:
    """The values, so many to a line, with commas between them."""
    texts = [str(value) for value in values]
    parts = (texts[place : place + _A_LINE] for place in range(0, len(texts), _A_LINE))
    return [indent + (", " if indent else ",").join(part) for part in parts]


def records(given: Instance) -> str:
    """The instance as records, which the program reads.

    >>> records(Lattice("square", 2, 2, [3, 4, 2, -5])).split()
    ['square,2,2', '3,4,2,-5', 'end']
    """
    own: Dict[str, Any] = dict(given.as_json())
    if own["kind"] != "general":
        head, inner = f"{own['kind']},{own['rows']},{own['cols']}", _in_lines(own["couplings"])
    else:
        head = f"general,{own['n']}"
        inner = [f"bond,{u},{v},{j}" for u, v, j in own["bonds"]]
        inner += [f"rot,{i},{','.join(map(str, darts))}" for i, darts in enumerate(own["rotation"]) if darts]
    seam = own.get("seam")
    if seam:
        inner.append("seam," + ",".join(map(str, seam)))
    return "\n".join([head, *inner, "end", ""])


def one_object(given: Instance) -> str:
    """The instance as an object of JSON, on one line."""
    return json.dumps(given.as_json(), separators=(",", ":")) + "\n"


def program(given: Instance) -> str:
    """A program of Python that solves the instance and checks the proof."""
    if isinstance(given, Lattice):
        rows = ",\n".join(_in_lines(given.couplings.tolist(), "    "))
        name, made = "lattice", f"ising2d.Lattice({given.kind!r}, {given.rows}, {given.cols}, couplings)"
        lists = f"couplings = [\n{rows},\n]\n" if rows else "couplings = []\n"
    else:
        own: Dict[str, Any] = dict(given.as_json())
        name, made = "graph", f"ising2d.Graph({own['n']}, bonds, rotation, {own['seam']})"
        bonds, rotation = (",\n".join(_in_lines(own[part], "    ")) for part in ("bonds", "rotation"))
        lists = f"bonds = [\n{bonds},\n]\nrotation = [\n{rotation},\n]\n"
    use = f"{name} = {made}\nfound = {name}.ground()\nprint(found.energy)\nprint(found.check())\n"
    return f"import ising2d\n\n{lists}{use}"


def proof(given: Instance) -> str:
    """The instance with a ground state and what proves it, as an object of JSON on one line. Up to 2048
    spins it has loops, and is a line that `ising2d-py lines check` judges; larger ones have a nest."""
    found = given.ground()
    own: Dict[str, Any] = {**given.as_json(), "energy": found.energy, "spins": found.spins.tolist()}
    if found.nest is None:
        own["loops"] = [{"y": loop.weight, "bonds": list(loop.bonds)} for loop in found.loops]
    else:
        own["nest"] = {name: getattr(found.nest, name).tolist() for name in NEST}
    return json.dumps(own, separators=(",", ":")) + "\n"


_FORMS: Dict[str, Tuple[str, Callable[[Instance], str]]] = {
    "records": ("instance.txt", records),
    "json": ("instance.json", one_object),
    "python": ("instance.py", program),
    "proof": ("proof.json", proof),
}
FORMS = tuple(_FORMS)


def exported(given: Instance, form: str) -> Tuple[str, str]:
    """The name and the text of the file."""
    name, text_of = _FORMS[form]
    return name, text_of(given)
