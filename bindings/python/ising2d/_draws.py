"""Instances and answers that are drawn from a law of disorder and a seed.

The program draws what is within its limits. Beyond these, and of the laws that it does not have, the same
stream of words is drawn here (``_laws``), so the couplings of a seed do not depend on who draws them.
"""

from __future__ import annotations

from fractions import Fraction
from itertools import islice
from typing import Any, Iterator, List, Optional, Sequence, Union, cast

from ._answers import Ensemble, Sample, Width
from ._arrays import as_array, shortened, whole, whole_numbers
from ._errors import Refusal, RefusalCode
from ._ffi import DRAWN_LAWS, MOST_SPINS, PROGRAM_SPINS, draws_of, has_function
from ._lattices import KINDS, Kind, Lattice, bond_count
from ._laws import LAWS as OWN_LAWS
from ._laws import SHARED, Source, share_of
from ._runs import answered, numbers, one_of, records_in
from ._stopping import Telling, Watch, refuse_progress
from ._threads import in_order
from ._types import Whole

PROGRAM_LAWS = ("one", "alternate", "pm", "uniform")
LAWS = (*PROGRAM_LAWS, *[law for law in OWN_LAWS if law not in PROGRAM_LAWS], *SHARED)
Share = Union[float, Fraction, None]

# The most samples that the program draws in one run.
_PROGRAM_COUNT = 1000
_LEAST_COLS = {"hexagonal": 2, "cylinder": 3}

# For each number of the words its least and its greatest value.
_RANGES = {
    "seed": (0, 2**64 - 1),
    "rows": (1, PROGRAM_SPINS),
    "cols": (1, PROGRAM_SPINS),
    "max_cols": (3, 64),
    "count": (1, _PROGRAM_COUNT),
}


# The words of each command behind its name.
WORDS = {
    "gen": ("law", "seed", "kind", "rows", "cols"),
    "sample": ("law", "seed", "rows", "cols"),
    "ensemble": ("law", "seed", "rows", "cols", "count"),
    "widths": ("law", "seed", "rows", "max_cols", "count"),
}


def _number(value: Any, what: str, low: int, high: int) -> int:
    found = whole(value, what)
    if not low <= found <= high:
        raise ValueError(f"{what} is {found} (allowed: {low} to {high})")
    return found


def checked(command: str, given: Sequence[Any]) -> List[str]:
    """A command of the program and its words. Raises ``ValueError`` or ``TypeError`` for the first that the
    program would answer with its usage."""
    named = dict(zip(WORDS[command], given))
    kind = _kind(named.get("kind", "cylinder" if command == "ensemble" else "square"))
    words = [command, _law_name(named.pop("law"))]
    for name, value in named.items():
        low, high = _RANGES.get(name, (0, 0))
        least = max(low, _LEAST_COLS.get(kind, 1)) if name == "cols" else low
        words.append(kind if name == "kind" else str(_number(value, name, least, high)))
    rows, cols = whole(named["rows"], "rows"), whole(named.get("cols", named.get("max_cols")), "cols")
    _within(rows, cols, PROGRAM_SPINS)
    return words


def _within(rows: int, cols: int, most: int) -> None:
    if rows * cols > most:
        raise ValueError(f"{rows} rows of {cols} columns have {rows * cols} spins (allowed: at most {most})")


def _kind(kind: Any) -> str:
    if not isinstance(kind, str) or kind not in KINDS:
        raise ValueError(f"kind is {shortened(kind)} (allowed: {', '.join(KINDS)})")
    return kind


def _law_name(law: Any) -> str:
    if not isinstance(law, str):
        raise TypeError(f"law: expected one of {', '.join(LAWS)}, not {shortened(law)}")
    return law


class _Draw:
    """A law with its seed and a lattice, all of them tested."""

    def __init__(self, law: Any, seed: Any, kind: Any, rows: Any, cols: Any, p: Any) -> None:
        self.law, self.kind = _law_name(law), _kind(kind)
        if law not in LAWS:
            code = RefusalCode.UNKNOWN_LAW
            sentence = f"no law of disorder has this name: {shortened(law)}"
            raise Refusal(code, (), shortened(law), words=(sentence, ", ".join(LAWS)))
        self.share = share_of(p, self.law)
        self.seed = _number(seed, "seed", 0, 2**64 - 1)
        self.rows = _number(rows, "rows", 1, MOST_SPINS)
        self.cols = _number(cols, "cols", _LEAST_COLS.get(self.kind, 1), MOST_SPINS)
        _within(self.rows, self.cols, MOST_SPINS)

    def by_program(self) -> bool:
        """Whether the program draws it."""
        return self.law in PROGRAM_LAWS and self.rows * self.cols <= PROGRAM_SPINS

    def bonds(self) -> int:
        return bond_count(self.kind, self.rows, self.cols)

    def first(self) -> Lattice:
        """The first lattice: the library draws it, or of other laws the same stream is drawn here."""
        if self.law in DRAWN_LAWS and has_function("ising2d_c_draws"):
            return self.lattice(draws_of(self.law, self.seed, self.bonds()))
        return next(self.lattices())

    def lattices(self, after: int = 0) -> Iterator[Lattice]:
        """Lattices that are drawn one after another, without so many at first."""
        source = Source(self.law, self.seed, self.share)
        source.skip(after * self.bonds())
        while True:
            yield self.lattice(source.couplings(self.bonds()))

    def lattice(self, couplings: Any) -> Lattice:
        return Lattice(cast(Kind, self.kind), self.rows, self.cols, couplings)

    def words(self) -> List[str]:
        return [self.law, str(self.seed)]

    def sizes(self) -> List[str]:
        return [str(self.rows), str(self.cols)]


def drawn_lattices(law: Any, seed: Any, kind: Any, rows: Any, cols: Any, p: Share = None) -> Iterator[Lattice]:
    """Lattices of a law that are drawn one after another, without an end."""
    return _Draw(law, seed, kind, rows, cols, p).lattices()


def draw(law: str, seed: Whole, kind: Kind, rows: Whole, cols: Whole, p: Share = None) -> Lattice:
    """A lattice of up to 2**22 spins whose couplings are the first draws of the law after the seed, bond
    by bond, the same on every machine.

    ``law`` is "one" (1), "alternate", "pm" (1 or -1), "uniform" (from -2**20 to 2**20 - 1), "gaussian"
    (of mean 0 and variance 1, times 2**20, rounded), "negative" (-1 with probability ``p``, else 1) or
    "diluted" (0 with probability ``p``, else 1 or -1).

    >>> draw("pm", 42, "square", 2, 2).couplings.tolist()
    [-1, -1, 1, -1]
    >>> draw("gaussian", 42, "square", 2, 2).couplings.tolist()
    [348835, 633119, 702652, 704368]
    """
    return _Draw(law, seed, kind, rows, cols, p).first()


def sample(law: str, seed: Whole, rows: Whole, cols: Whole, p: Share = None) -> Sample:
    """The numbers of a drawn square lattice: its least energy, and the weight of its broken bonds. The
    laws are those of ``draw``.

    >>> sample("pm", 7, 24, 24).energy
    -792
    """
    own = _Draw(law, seed, "square", rows, cols, p)
    if own.by_program():
        text = answered(["sample", *own.words(), *own.sizes()])
        return Sample(*(int(fields[0]) for _, fields in records_in(text)))
    lattice = own.first()
    energy, sizes = lattice.ground(loops=False).energy, sum(map(abs, lattice.couplings.tolist()))
    return Sample(lattice.n, len(lattice.couplings), sizes, energy, (energy + sizes) // 2)


def ensemble(
    law: str,
    seed: Whole,
    rows: Whole,
    cols: Whole,
    count: Whole,
    p: Share = None,
    after: Optional[Ensemble] = None,
    progress: Telling = None,
    threads: Optional[Whole] = None,
) -> Ensemble:
    """The wall energies of ``count`` cylinders of up to 2**22 spins, which are drawn one after another. The
    laws are those of ``draw``. Cylinders that the program does not draw are solved side by side in
    ``threads``, by default as many as there are processors.

    ``after`` is an ensemble of the same law, seed and sizes, whose walls are the first ones: only the
    others are solved. ``progress`` is as for ``Lattice.costs``. If Ctrl-C or ``progress`` stops it,
    ``Stopped`` is raised; its ``found`` is the ensemble so far, to continue with ``after``.

    >>> ensemble("one", 0, 1, 3, 2).walls.tolist()
    [2, 2]
    >>> ensemble("pm", 1, 4, 4, 9, after=ensemble("pm", 1, 4, 4, 5)) == ensemble("pm", 1, 4, 4, 9)
    True
    """
    own = _Draw(law, seed, "cylinder", rows, cols, p)
    samples = _number(count, "count", 1, 10**9)
    refuse_progress(progress)
    if after is not None and not isinstance(after, Ensemble):
        raise TypeError(f"after: expected an Ensemble, not {shortened(after)}")
    is_new = after is None or not len(after.walls)
    if is_new and own.by_program() and samples <= _PROGRAM_COUNT and not callable(progress) and threads is None:
        text = answered(["ensemble", *own.words(), *own.sizes(), str(samples)])
        walls = [int(fields[1]) for first, fields in records_in(text) if first == "wall"]
        return Ensemble(as_array(walls, "int64"), one_of(text, "sum")[0], one_of(text, "squares")[0])
    walls = [] if after is None else whole_numbers(after.walls, "int64", "walls").tolist()[:samples]
    with Watch(progress, samples, lambda: Ensemble.of(walls)) as watch:
        watch.done = len(walls)
        lattices = islice(own.lattices(len(walls)), samples - len(walls))
        for difference in in_order(lambda lattice: lattice.wall().difference, lattices, threads):
            walls.append(difference)
            watch.step(1)
    return Ensemble.of(walls)


def widths(law: str, seed: Whole, rows: Whole, max_cols: Whole, count: Whole) -> List[Width]:
    """The sums of such an ensemble for each number of columns from 3 to ``max_cols``.

    >>> widths("one", 0, 1, 3, 2)
    [Width(cols=3, sum=4, squares=8)]
    """
    words = checked("widths", (law, seed, rows, max_cols, count))
    text = answered(words, given=_Named(words[1]))
    return [Width(*numbers(fields)) for _, fields in records_in(text)]


class _Named(str):
    """The name of a law, which a refusal shows."""

    def _shown(self, number: int, kept: Any) -> Optional[str]:
        return shortened(str(self)) if number == RefusalCode.UNKNOWN_LAW else None
