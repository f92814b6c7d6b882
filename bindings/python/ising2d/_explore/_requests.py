"""What the page asks, and how it is answered: an object of JSON in, an object of JSON out. Each request
carries its whole instance, so nothing is kept from one to the next."""

import json
import time
from fractions import Fraction
from typing import Any, Callable, Dict, Optional, Sequence

from .. import Graph, Ground, Instance, Lattice, Verdict, read
from .. import draw as drawn
from .._arrays import whole_numbers
from ._exports import FORMS, NEST, exported
from ._shapes import shape_of

Object = Dict[str, Any]

KINDS = ("square", "triangular", "hexagonal", "cylinder")
MOST_SIDE, MOST_SPINS, MOST_BONDS = 100, 100 * 100, 3 * 100 * 100
_MOST_SEED = 2**64 - 1
# What one is, of each law, in units of the couplings; and the laws that have a share of bonds.
UNITS = {"pm": 1, "negative": 1, "diluted": 1, "gaussian": 2**20, "uniform": 2**20, "one": 1, "alternate": 1}
_SHARED = ("negative", "diluted")


class Members:
    """The members of a request. What is missing, strange or of the wrong kind is a ``ValueError``."""

    def __init__(self, given: Object, allowed: Sequence[str]) -> None:
        strange = sorted(set(given) - set(allowed))
        if strange:
            raise ValueError(f"a member does not belong here: {strange[0]!r}")
        self.given = given

    def of(self, name: str, kind: type, default: Any = None) -> Any:
        """The member with this name."""
        value = self.given.get(name, default)
        if not isinstance(value, kind) or (kind is int and isinstance(value, bool)):
            raise ValueError(f"{name}: expected {_KIND_NAMES[kind]}")
        return value

    def whole(self, name: str, low: int, high: int, default: Optional[int] = None) -> int:
        """A whole number from ``low`` to ``high``; a number that JavaScript cannot hold comes as a text."""
        value = self.given.get(name, default)
        if isinstance(value, str) and value.isascii() and value.isdecimal() and len(value) <= 20:
            value = int(value)
        if not isinstance(value, int) or isinstance(value, bool) or not low <= value <= high:
            raise ValueError(f"{name}: expected a whole number from {low} to {high}")
        return value

    def one_of(self, name: str, allowed: Sequence[str]) -> str:
        value = self.given.get(name)
        if not isinstance(value, str) or value not in allowed:
            raise ValueError(f"{name}: expected one of {', '.join(allowed)}")
        return value

    def instance(self) -> Instance:
        """The lattice or graph of the request."""
        own = self.of("instance", dict)
        if own.get("kind") == "general":
            inner = Members(own, ("kind", "n", "bonds", "rotation", "seam"))
            graph = Graph(
                inner.whole("n", 1, MOST_SPINS),
                inner.of("bonds", list),
                inner.of("rotation", list),
                inner.of("seam", list, []),
            )
            return within_limits(graph)
        inner = Members(own, ("kind", "rows", "cols", "couplings"))
        kind: Any = inner.one_of("kind", KINDS)
        rows, cols = (inner.whole(name, 1, MOST_SPINS) for name in ("rows", "cols"))
        return within_limits(Lattice(kind, rows, cols, inner.of("couplings", list)))


_KIND_NAMES = {dict: "an object", list: "a list", str: "a text", bool: "true or false", int: "a whole number"}


def within_limits(given: Instance) -> Instance:
    """The instance, where the page can show it."""
    if given.n > MOST_SPINS:
        raise ValueError(f"the instance has {given.n} spins (the page shows at most {MOST_SPINS})")
    if len(given.couplings) > MOST_BONDS:
        raise ValueError(f"the instance has {len(given.couplings)} bonds (at most {MOST_BONDS})")
    return given


def _shown(given: Instance, unit: int) -> Object:
    return {"instance": given.as_json(), "shape": shape_of(given), "unit": unit}


def draw(given: Object) -> Object:
    """A drawn lattice, with where its parts lie."""
    own = Members(given, ("kind", "rows", "cols", "law", "seed", "share"))
    kind: Any = own.one_of("kind", KINDS)
    law = own.one_of("law", tuple(UNITS))
    least = {"hexagonal": 2, "cylinder": 3}.get(kind, 1)
    rows, cols = own.whole("rows", 1, MOST_SIDE), own.whole("cols", least, MOST_SIDE)
    seed, share = own.whole("seed", 0, _MOST_SEED), own.whole("share", 0, 1000, 500)
    probability = Fraction(share, 1000) if law in _SHARED else None
    return _shown(drawn(law, seed, kind, rows, cols, probability), UNITS[law])


def opened(given: Object) -> Object:
    """The instance of a text of records or of JSON, with where its parts lie."""
    text = Members(given, ("text",)).of("text", str)
    return _shown(within_limits(read(text)), 1)


def solve(given: Object) -> Object:
    """A ground state, with the proofs that are asked for, and the checker's verdicts on it: by its nest,
    and by its loops where these are asked for."""
    own = Members(given, ("instance", "loops", "nest"))
    instance = own.instance()
    with_loops, with_nest = own.of("loops", bool, False), own.of("nest", bool, False)
    begun = time.perf_counter()
    found = instance.ground(loops=False, nest=True)
    taken = time.perf_counter() - begun
    answer: Object = {
        "energy": found.energy,
        "spins": found.spins.tolist(),
        "verdicts": [_verdict(found.check())],
        "seconds": round(taken, 6),
    }
    if with_nest and found.nest is not None:
        answer["nest"] = _lists(found.nest, NEST)
    if with_loops:
        loops = instance.ground(loops=True, nest=False).loops
        answer["loops"] = _lists(loops, ("weights", "starts", "bonds"))
        answer["verdicts"].append(_verdict(instance.check(found.energy, found.spins, loops)))
    return answer


def _lists(proof: Any, names: Sequence[str]) -> Object:
    return {name: getattr(proof, name).tolist() for name in names}


def _verdict(own: Verdict) -> Object:
    return {"of": own.of, "holds": bool(own), "sentence": own.sentence}


def force(given: Object) -> Object:
    """What it costs to turn a bond of a ground state, and the droplet that turns with it."""
    own = Members(given, ("instance", "bond", "spins"))
    instance, spins = own.instance(), own.of("spins", list)
    bond = own.whole("bond", 0, len(instance.couplings) - 1)
    if len(spins) != instance.n or any(value not in (1, -1) for value in spins):
        raise ValueError(f"spins: expected {instance.n} values, each 1 or -1")
    state = Ground(instance.energy_of(spins), whole_numbers(spins, "int8", "spins"), (), instance)
    found = instance.droplet(bond, state)
    return {
        "cost": found.cost,
        "turned": found.spins.tolist(),
        "border": list(found.border),
        "verdict": _verdict(found.forced.check()),
    }


def costs(given: Object) -> Object:
    """The cost of each bond."""
    return {"costs": Members(given, ("instance",)).instance().costs().tolist()}


def clusters(given: Object) -> Object:
    """For each spin the least spin of its rigid cluster."""
    return {"clusters": Members(given, ("instance",)).instance().clusters().names.tolist()}


def wall(given: Object) -> Object:
    """The energies of the wall at the seam, and its bonds."""
    found = Members(given, ("instance",)).instance().wall(states=True)
    return {
        "periodic": found.periodic,
        "antiperiodic": found.antiperiodic,
        "difference": found.difference,
        "bonds": list(found.bonds),
        "verdicts": [_verdict(state.check()) for state in (found.ground, found.turned)],
    }


def export(given: Object) -> Object:
    """A file to take away: its name and its text."""
    own = Members(given, ("instance", "form"))
    form = own.one_of("form", FORMS)
    name, text = exported(own.instance(), form)
    return {"name": name, "text": text}


REQUESTS: Dict[str, Callable[[Object], Object]] = {
    "draw": draw,
    "open": opened,
    "solve": solve,
    "force": force,
    "costs": costs,
    "clusters": clusters,
    "wall": wall,
    "export": export,
}


def object_of(body: bytes) -> Object:
    """The object of a request's body. What is not a JSON object is a ``ValueError``."""
    try:
        found = json.loads(body.decode("utf-8"))
    except (ValueError, RecursionError) as fault:
        raise ValueError(f"the body is not valid JSON: {fault}") from None
    if not isinstance(found, dict):
        raise ValueError("the body is not a JSON object")
    return found
