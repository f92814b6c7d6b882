"""The shared library: where it is, its functions, and the calls that pass a graph and an answer's arrays.

The library is loaded at the first call, not when the package is imported. Each function takes the graph as
its tables; of a lattice the library makes them (``lattice_tables``).
"""

from __future__ import annotations

import ctypes
import os
from functools import lru_cache
from pathlib import Path
from typing import Any, Dict, Iterator, List, NamedTuple, Optional, Protocol, Sequence, Tuple

from ._arrays import buffer, first_of, in_64_bits, pointer_to, read_only, whole_numbers, zeros
from ._errors import LibraryMissing, Member, NoProofFound, RefusalCode, numbers_of, refusal_of
from ._loops import Loops, rows_of
from ._nests import Nest, nest_of

NAME = "libising2d.so"
DONE, REFUSED, NO, NO_PROOF, NO_MEMORY = 0, 1, 3, 5, 6
MOST_SPINS, MOST_BONDS = 2**22, 3 * 2**22
# The limit of the program, and of the calls for costs and clusters.
PROGRAM_SPINS = 2048

_SIZE = ctypes.c_size_t
_ARRAY = ctypes.c_void_p
_COUNT = ctypes.POINTER(_SIZE)
_LINE: List[Any] = [_ARRAY, _SIZE, _COUNT]


class GroundNumbers(ctypes.Structure):
    """struct ising2d_ground of the header."""

    _fields_ = [("energy", ctypes.c_int64), ("loop_count", _SIZE), ("bond_count", _SIZE)]


class NestNumbers(ctypes.Structure):
    """struct ising2d_nest of the header."""

    _fields_ = [("energy", ctypes.c_int64), ("region_count", _SIZE), ("face_count", _SIZE)]


class WallNumbers(ctypes.Structure):
    """struct ising2d_wall of the header."""

    _fields_ = [(name, ctypes.c_int64) for name in ("periodic", "antiperiodic", "difference")]


class JoinNumbers(ctypes.Structure):
    """struct ising2d_join of the header."""

    _fields_ = [
        ("weight", ctypes.c_int64),
        ("edge_count", _SIZE),
        ("region_count", _SIZE),
        ("node_count", _SIZE),
    ]


class TableNumbers(ctypes.Structure):
    """struct ising2d_tables of the header."""

    _fields_ = [(name, _SIZE) for name in ("ends", "starts", "darts", "seam")]


# A graph: the number of spins, the ends, the couplings, the starts of the darts, the darts, the seam. A
# proof: the energy, spins, and the weights, starts and bonds of loops; or in place of these the parents and
# radii of a nest, and the regions of the faces with their radii.
_LATTICE: List[Any] = [ctypes.c_uint8, ctypes.c_uint32, ctypes.c_uint32, _ARRAY, _SIZE, ctypes.c_uint32]
_GRAPH: List[Any] = [ctypes.c_uint32] + [_ARRAY, _SIZE] * 5
# A weighted graph: the number of nodes, the ends and the weights of its edges; and a list of terminals.
_NETWORK: List[Any] = [ctypes.c_uint32] + [_ARRAY, _SIZE] * 3

FUNCTIONS: Dict[str, List[Any]] = {
    "ising2d_c_run": [_ARRAY, _SIZE, _ARRAY, _SIZE, _ARRAY, _SIZE, _COUNT, _COUNT],
    "ising2d_c_lattice": _LATTICE + [ctypes.POINTER(TableNumbers)] + [_ARRAY, _SIZE] * 4 + _LINE,
    "ising2d_c_ground": _GRAPH + [ctypes.POINTER(GroundNumbers)] + [_ARRAY, _SIZE] * 4 + _LINE,
    "ising2d_c_nest": _GRAPH + [ctypes.POINTER(NestNumbers)] + [_ARRAY, _SIZE] * 5 + _LINE,
    "ising2d_c_wall": _GRAPH + [ctypes.POINTER(WallNumbers)] + _LINE,
    "ising2d_c_bonds": _GRAPH + [_ARRAY, _SIZE] + _LINE,
    "ising2d_c_bond_costs": _GRAPH + [_ARRAY, _SIZE] * 3 + _LINE,
    "ising2d_c_cost_bounds": _GRAPH + [ctypes.c_uint32] + [_ARRAY, _SIZE] * 2 + _LINE,
    "ising2d_c_clusters": _GRAPH + [_ARRAY, _SIZE] + _LINE,
    "ising2d_c_draws": [ctypes.c_uint8, ctypes.c_uint64, _SIZE, _ARRAY, _SIZE] + _LINE,
    "ising2d_c_check": _GRAPH + [ctypes.c_int64] + [_ARRAY, _SIZE] * 4 + _LINE,
    "ising2d_c_nest_check": _GRAPH + [ctypes.c_int64] + [_ARRAY, _SIZE] * 5 + _LINE,
    "ising2d_c_join": _NETWORK + [ctypes.POINTER(JoinNumbers)] + [_ARRAY, _SIZE] * 5 + _LINE,
    "ising2d_c_join_check": _NETWORK + [_ARRAY, _SIZE] * 5 + _LINE,
    "ising2d_c_joins": _NETWORK + [_ARRAY, _SIZE] * 4 + [_COUNT] + _LINE,
}


# Functions that a library of the same soname may lack: what needs them says so.
_LATER = {"ising2d_c_draws", "ising2d_c_bond_costs", "ising2d_c_cost_bounds"}


def _function(name: str) -> Any:
    """A function of the library. Raises ``LibraryMissing`` if it is an older one without it."""
    own = library()
    if not has_function(name):
        raise LibraryMissing(f"{own._name} has no {name}: it is older than the package; make it with bindings/build")
    return getattr(own, name)


def has_function(name: str) -> bool:
    """Whether the library has this function."""
    return hasattr(library(), name)


def _places() -> Iterator[Path]:
    """Where the library may be: the environment's, beside the package, and in a clone."""
    named = os.environ.get("ISING2D_LIBRARY")
    if named:
        # A path without a slash would be looked up in the system's folders.
        yield Path(named).absolute()
        return
    here = Path(__file__).resolve().parent
    yield here / NAME
    for above in here.parents:
        yield above / "built" / NAME


@lru_cache(maxsize=None)
def library() -> ctypes.CDLL:
    """The library, with the types of its functions. Raises ``LibraryMissing`` if it is not there."""
    tried: List[Path] = []
    for place in _places():
        tried.append(place)
        if place.exists():
            return _opened(place)
    if os.environ.get("ISING2D_LIBRARY"):
        raise LibraryMissing(f"ISING2D_LIBRARY names {tried[0]}, which does not exist")
    raise LibraryMissing(
        f"{NAME} is missing: make it with bindings/build, or name it in ISING2D_LIBRARY "
        "if it is in no folder above this package"
    )


def _opened(place: Path) -> ctypes.CDLL:
    try:
        found = ctypes.CDLL(str(place))
        for name, types in FUNCTIONS.items():
            if name in _LATER and not hasattr(found, name):
                continue
            function = getattr(found, name)
            function.argtypes = types
            function.restype = ctypes.c_uint8
    except (OSError, AttributeError) as fault:
        raise LibraryMissing(f"{place} is not a library of ising2d: {fault}") from None
    return found


class Tables(NamedTuple):
    """A graph without its couplings, as arrays: two ends for each bond, for each spin the start of its
    darts, the darts, and the bonds of the seam."""

    n: int
    ends: Any
    starts: Any
    darts: Any
    seam: Any


class Numbers(NamedTuple):
    """A graph as the library takes it, in the order of its arguments."""

    n: int
    ends: Any
    couplings: Any
    starts: Any
    darts: Any
    seam: Any


class Given(Protocol):
    """What is asked about: an instance, as the calls below need it."""

    @property
    def couplings(self) -> Any: ...

    def _numbers_within(self, most: int) -> Numbers:
        """The graph, if it has at most so many spins; else its refusal is raised."""

    def _spin_room(self) -> int:
        """The number of spins, or the largest that is allowed."""

    def _shown(self, number: int, kept: Sequence[int]) -> Optional[str]:
        """The value that a refusal is about."""


class Line:
    """Room for the line of a refusal, or of a verdict."""

    def __init__(self) -> None:
        self.bytes = ctypes.create_string_buffer(128)
        self.written = ctypes.c_size_t(0)

    def arguments(self) -> Tuple[Any, ...]:
        return ctypes.addressof(self.bytes), 128, ctypes.byref(self.written)

    def text(self) -> str:
        return self.bytes.raw[: self.written.value].decode("ascii")

    def judge(self, status: int, given: object, large: bool = True) -> None:
        """Raises what the status says; ``large`` is whether the call takes large instances."""
        if status == REFUSED:
            raise refusal_of(self.text(), given, large)
        raise_status(status)


def raise_status(status: int) -> None:
    """Raises what a status says that is neither an answer nor a refusal."""
    if status == NO_PROOF:
        raise NoProofFound("no proof was found within the allowed memory")
    if status != DONE:
        raise MemoryError("the library is out of memory")


def _call(name: str, given: Given, *arguments: Any, most: int = MOST_SPINS) -> int:
    """A call on a graph, or on a lattice of at most so many spins."""
    numbers = given._numbers_within(most)
    own = (part for values in numbers[1:] for part in pointer_to(values))
    return int(_function("ising2d_c_" + name)(numbers.n, *own, *arguments))


class Sizes(NamedTuple):
    """A lattice without its couplings: the number of its kind, its rows and columns."""

    kind: int
    rows: int
    cols: int


def lattice_tables(sizes: Sizes, couplings: Any, most: int, given: object) -> Tables:
    """The tables of a lattice of at most so many spins. Raises its refusal."""
    line, counts = Line(), TableNumbers()
    # A lattice has as many bonds as couplings, or is refused.
    bonds, spins = min(len(couplings), MOST_BONDS), min(sizes.rows * sizes.cols, MOST_SPINS)
    ends, darts = buffer("uint32", 2 * bonds), buffer("uint32", 2 * bonds)
    starts, seam = buffer("uint64", spins + 1), buffer("uint32", min(sizes.rows, spins))
    status = library().ising2d_c_lattice(
        *sizes,
        *pointer_to(couplings),
        most,
        ctypes.byref(counts),
        *pointer_to(ends),
        *pointer_to(starts),
        *pointer_to(darts),
        *pointer_to(seam),
        *line.arguments(),
    )
    line.judge(status, given, large=most == MOST_SPINS)
    return Tables(
        spins,
        read_only(ends[: counts.ends]),
        read_only(starts[: counts.starts]),
        read_only(darts[: counts.darts]),
        read_only(seam[: counts.seam]),
    )


Found = Tuple[int, Any, Loops, Optional[Nest]]


def ground_of(given: Given, loops: Optional[bool], nest: Optional[bool]) -> Found:
    """The energy, the spins, and the loops or the nest of a ground state."""
    is_large = given._spin_room() > PROGRAM_SPINS
    with_nest = nest if nest is not None else loops is None and is_large
    with_loops = loops if loops is not None else not with_nest
    if with_loops and not with_nest:
        return (*_with_loops(given), None)
    energy, spins, found = _nested(given, bool(with_nest))
    if with_loops or (with_nest and found is None):
        # Loops if they are asked for, or if no nest was found.
        return (*_with_loops(given), found)
    return energy, spins, Loops.none(), found


def _nested(given: Given, with_nest: bool) -> Tuple[int, Any, Optional[Nest]]:
    """A ground state, with its nest if that is asked for and found."""
    line, answer = Line(), NestNumbers()
    # By Euler's formula there are at most as many faces as spins and bonds, and a region of parts has at
    # least three. Room that is not written costs nothing.
    faces = min(len(given.couplings), MOST_BONDS) + given._spin_room() if with_nest else 0
    spins = zeros("int8", given._spin_room())
    parents, radii = buffer("uint32", 2 * faces), buffer("uint64", 2 * faces)
    regions, at_radii = buffer("uint32", faces), buffer("uint64", faces)
    status = _call(
        "nest",
        given,
        ctypes.byref(answer),
        *pointer_to(spins),
        *pointer_to(parents),
        *pointer_to(radii),
        *pointer_to(regions),
        *pointer_to(at_radii),
        *line.arguments(),
    )
    line.judge(status, given)
    count, own = answer.region_count, answer.face_count
    if not with_nest or not own or count > 2 * faces or own > faces:
        return answer.energy, read_only(spins), None
    nest = Nest(
        first_of("uint32", parents, count),
        first_of("uint64", radii, count),
        first_of("uint32", regions, own),
        first_of("uint64", at_radii, own),
    )
    return answer.energy, read_only(spins), nest


def _with_loops(given: Given) -> Tuple[int, Any, Loops]:
    """The energy, the spins and the loops."""
    bonds = min(len(given.couplings), MOST_BONDS)
    # Loops of strips were seen to take 80 bonds for each bond. Room that is not written costs nothing.
    wanted = (5 * bonds // 2 + 1, 128 * bonds + 64)
    found, needed = _ground(given, wanted)
    if needed[0] > wanted[0] or needed[1] > wanted[1]:
        found, needed = _ground(given, needed)
    return found


def _ground(given: Given, rooms: Tuple[int, int]) -> Tuple[Tuple[int, Any, Loops], Tuple[int, int]]:
    """A ground state, with its loops if there is room for them, and the room that they need."""
    line, answer = Line(), GroundNumbers()
    spins, weights = zeros("int8", given._spin_room()), buffer("int64", rooms[0])
    starts = buffer("uint64", rooms[0] + 1)
    bonds = buffer("uint32", rooms[1])
    status = _call(
        "ground",
        given,
        ctypes.byref(answer),
        *pointer_to(spins),
        *pointer_to(weights),
        *pointer_to(starts),
        *pointer_to(bonds),
        *line.arguments(),
    )
    line.judge(status, given)
    needed = answer.loop_count, answer.bond_count
    if needed[0] > rooms[0] or needed[1] > rooms[1]:
        return (answer.energy, read_only(spins), Loops.none()), needed
    loops = Loops(
        first_of("int64", weights, needed[0]),
        first_of("uint64", starts, needed[0] + 1),
        first_of("uint32", bonds, needed[1]),
    )
    return (answer.energy, read_only(spins), loops), needed


def wall_of(given: Given) -> Tuple[int, int, int]:
    """The energies of the wall at the seam."""
    line, answer = Line(), WallNumbers()
    line.judge(_call("wall", given, ctypes.byref(answer), *line.arguments()), given)
    return answer.periodic, answer.antiperiodic, answer.difference


def costs_of(given: Given) -> Any:
    """The cost of each bond."""
    line, costs = Line(), zeros("int64", min(len(given.couplings), MOST_BONDS))
    status = _call("bonds", given, *pointer_to(costs), *line.arguments(), most=PROGRAM_SPINS)
    line.judge(status, given, large=False)
    return read_only(costs)


def narrow_bounds(given: Given, asked: Any, low: Any, high: Any) -> None:
    """Narrows the bounds of the costs of all bonds, two arrays, until those of the asked bonds meet."""
    line, own = Line(), (part for values in (asked, low, high) for part in pointer_to(values))
    line.judge(_call("bond_costs", given, *own, *line.arguments()), given)


def enclose_costs(given: Given, rounds: int, low: Any, high: Any) -> None:
    """Narrows the bounds of the costs of all bonds, two arrays, by so many ground states."""
    line, own = Line(), (part for values in (low, high) for part in pointer_to(values))
    line.judge(_call("cost_bounds", given, rounds, *own, *line.arguments()), given)


def clusters_of(given: Given) -> Any:
    """The cluster of each spin."""
    line, names = Line(), zeros("uint32", given._spin_room())
    line.judge(_call("clusters", given, *pointer_to(names), *line.arguments()), given)
    return read_only(names)


# The laws of which the library draws, by their numbers.
DRAWN_LAWS = ("one", "alternate", "pm", "uniform")


def draws_of(law: str, seed: int, count: int) -> Any:
    """The first draws of a law after a seed."""
    line, found = Line(), zeros("int64", count)
    own = pointer_to(found)
    status = _function("ising2d_c_draws")(DRAWN_LAWS.index(law), seed, count, *own, *line.arguments())
    line.judge(status, None)
    return read_only(found)


class Proof(NamedTuple):
    """A proof by loops as the library takes it."""

    energy: int
    spins: Any
    loops: Loops

    def _shown(self, number: int, kept: Sequence[int]) -> Optional[str]:
        """The value that a refusal is about."""
        if number != RefusalCode.BAD_MEMBER or kept[0] not in (Member.SPINS, Member.STARTS):
            return None
        values = self.spins if kept[0] == Member.SPINS else self.loops.starts
        return str(int(values[kept[1]])) if kept[1] < len(values) else None


def proof_of(energy: Any, spins: Any, loops: Any) -> Proof:
    """What is stated, as the library takes it."""
    return Proof(in_64_bits(energy, "energy"), whole_numbers(spins, "int8", "spins"), rows_of(loops))


Finding = Tuple[int, Tuple[int, ...]]


def _is_about(line: str, *members: int) -> bool:
    """Whether a refusal is about one of these members."""
    number, *kept = numbers_of(line)
    return number == RefusalCode.BAD_MEMBER and kept[0] in members


def check_of(given: Given, stated: Proof) -> Finding:
    """The number of the verdict on a proof, and the numbers that it keeps."""
    line, rows = Line(), stated.loops
    status = _call(
        "check",
        given,
        stated.energy,
        *pointer_to(stated.spins),
        *pointer_to(rows.weights),
        *pointer_to(rows.starts),
        *pointer_to(rows.bonds),
        *line.arguments(),
    )
    if status == NO:
        number, *kept = numbers_of(line.text())
        return number, tuple(kept)
    about_proof = status == REFUSED and _is_about(line.text(), Member.SPINS, Member.STARTS)
    line.judge(status, stated if about_proof else given)
    return 0, ()


class NestProof(NamedTuple):
    """A proof by a nest as the library takes it."""

    energy: int
    spins: Any
    nest: Nest

    def _shown(self, number: int, kept: Sequence[int]) -> Optional[str]:
        """The value that a refusal is about."""
        if number != RefusalCode.BAD_MEMBER:
            return None
        if kept[0] == Member.SPINS and kept[1] < len(self.spins):
            return str(int(self.spins[kept[1]]))
        nest = self.nest
        if kept[0] == Member.RADII:
            return f"{len(nest.radii)} radii beside {len(nest.parents)}"
        return f"{len(nest.at_radii)} radii beside {len(nest.regions)}"


def nest_proof_of(energy: Any, spins: Any, nest: Any) -> NestProof:
    """What is stated, as the library takes it."""
    return NestProof(in_64_bits(energy, "energy"), whole_numbers(spins, "int8", "spins"), nest_of(nest))


def nest_check_of(given: Given, stated: NestProof) -> Finding:
    """The number of the verdict on a proof by a nest: 0 or 1."""
    line = Line()
    status = _call(
        "nest_check",
        given,
        stated.energy,
        *pointer_to(stated.spins),
        *(part for own in stated.nest for part in pointer_to(own)),
        *line.arguments(),
    )
    if status == NO:
        return 1, ()
    members = Member.SPINS, Member.RADII, Member.AT_RADII
    about_proof = status == REFUSED and _is_about(line.text(), *members)
    line.judge(status, stated if about_proof else given)
    return 0, ()


def run_of(words: bytes, given: bytes, capacity: int) -> Tuple[int, bytes, int]:
    """The status of a whole run, its text as far as there is room, and the length of the whole text."""
    out = ctypes.create_string_buffer(capacity)
    written, length = ctypes.c_size_t(), ctypes.c_size_t()
    status = library().ising2d_c_run(
        words,
        len(words),
        given,
        len(given),
        ctypes.addressof(out),
        capacity,
        ctypes.byref(written),
        ctypes.byref(length),
    )
    return status, out.raw[: written.value], length.value
