"""Refusals: why numbers or a text give no answer; and verdicts. Their sentences are in texts.csv.

A row of it has what it is of, its number, a name, the names of the numbers that are kept, a sentence over
these, and what is allowed. It is of a ``refusal``, of a ``member`` that refusal 19 names, or of a verdict on
``loops``, a ``nest``, a ``join`` or a ``walk``, the last two with those on their ``cuts``. Rows of ``graph``,
``large`` and ``line`` are of refusals too: of weighted graphs, of calls that take large instances, and of
texts whose line is known; in these and in members what is empty is as of the refusal.
"""

from __future__ import annotations

import csv
from enum import IntEnum
from pathlib import Path
from typing import Any, Dict, NamedTuple, Optional, Sequence, Tuple, Type

Words = Tuple[str, str]


class RefusalCode(IntEnum):
    """The numbers of all refusals, by their names in docs/FORMATS.md.

    >>> RefusalCode.NOT_PLANAR == 15
    True
    """

    TOO_LONG = 1
    UNENDED = 2
    BAD_NUMBER = 3
    UNKNOWN_KIND = 4
    BAD_SHAPE = 5
    COUPLING_COUNT = 6
    TOO_MANY_SPINS = 7
    TOO_MANY_BONDS = 8
    SELF_BOND = 9
    BAD_ROTATION = 10
    BAD_SEAM = 11
    TRAILING = 12
    SUM_TOO_LARGE = 13
    NOT_PLANAR = 15
    NO_SEAM = 16
    UNKNOWN_LAW = 17
    BAD_JSON = 18
    BAD_MEMBER = 19
    JSON_TOO_LONG = 20
    ODD_TERMINALS = 21
    BAD_TERMINAL = 22
    NOT_JOINED = 23


class Member(IntEnum):
    """The members that ``RefusalCode.BAD_MEMBER`` names, by the first number that it keeps."""

    KIND = 1
    OTHER = 2
    ROWS = 3
    COLS = 4
    N = 5
    COUPLINGS = 6
    BONDS = 7
    ROTATION = 8
    SEAM = 9
    SPINS = 10
    STARTS = 11
    RADII = 12
    AT_RADII = 13
    ASKED = 14
    LOW = 15
    HIGH = 16
    NODES = 17
    EDGES = 18
    TERMINAL_STARTS = 19


class _Text(NamedTuple):
    """A name, the names of the numbers that are kept, a sentence over them, and what is allowed."""

    name: str
    kept: Tuple[str, ...]
    sentence: str
    allowed: str = ""

    def over(self, kept: Sequence[object]) -> Words:
        """The sentence and what is allowed, with these numbers in their places."""
        named = dict(zip(self.kept, kept))
        return _filled(self.sentence, named), _filled(self.allowed, named)

    def of(self, refusal: "_Text") -> "_Text":
        """A row that has of the refusal what it leaves empty, and its name."""
        kept, sentence = self.kept or refusal.kept, self.sentence or refusal.sentence
        return _Text(refusal.name, kept, sentence, self.allowed or refusal.allowed)


def _filled(text: str, named: Dict[str, object]) -> str:
    try:
        return text.format(**named)
    except KeyError:
        return text


def _texts() -> Dict[str, Dict[int, _Text]]:
    """All rows, by what they are of and by their numbers."""
    found: Dict[str, Dict[int, _Text]] = {}
    with open(Path(__file__).with_name("texts.csv"), encoding="utf-8", newline="") as file:
        for of, number, name, kept, sentence, allowed in list(csv.reader(file))[1:]:
            text = _Text(name, tuple(kept.split()), sentence, allowed)
            found.setdefault(of, {})[int(number)] = text
    return found


_TEXTS = _texts()
_REASONS = _TEXTS["refusal"]
_NONE = _Text("Refused", (), "the input is refused")
# The verdicts on each kind of proof.
_VERDICTS = {
    "loops": _TEXTS["loops"],
    "nest": _TEXTS["nest"],
    "join": {**_TEXTS["join"], **_TEXTS["cuts"], **_TEXTS["regions"]},
    "walk": {**_TEXTS["walk"], **_TEXTS["cuts"]},
}


def _reason_of(number: int, kept: Sequence[int]) -> _Text:
    reason = _REASONS.get(number, _NONE)
    if number == RefusalCode.BAD_MEMBER and kept and kept[0] in _TEXTS["member"]:
        return _TEXTS["member"][kept[0]].of(reason)
    return reason


def member_name(place: int) -> str:
    """The name of the member at a place, of an object of JSON or an argument of the library."""
    return _TEXTS["member"][place].name if place in _TEXTS["member"] else ""


def words_of(of: str, number: int, kept: Sequence[object], allowed: str = "") -> Optional[Words]:
    """What a refusal says of a ``graph``, of a call that takes ``large`` instances or of a ``line``, and what
    is allowed, where it is not as of every instance; ``allowed`` is that where the caller knows it."""
    text = _TEXTS[of].get(number)
    if text is None:
        return None
    sentence, known = text.of(_REASONS[number]).over(kept)
    return sentence, allowed or known


def verdict_sentence(number: int, kept: Sequence[int], of: str = "loops") -> str:
    """A verdict in words, on a proof of this kind."""
    text = _VERDICTS[of].get(number)
    return text.over(kept)[0] if text else "the proof fails"


class Refusal(ValueError):
    """An instance, a proof or a text that is refused, and why.

    ``number`` is the number of the refusal, ``code`` the same as a ``RefusalCode``, ``name`` its name,
    ``kept`` the numbers that show it, ``value`` the wrong value if it is known, ``allowed`` what is
    allowed there, ``line`` the line of a text, counted from 1, and ``sentence`` the reason in words.
    docs/FORMATS.md lists all refusals. Each is raised as one of the subclasses ``BadInstance``,
    ``BadText``, ``TooLarge``, ``NotPlanar``, ``NoSeam``, ``UnknownLaw`` and ``BadTerminals``.

        >>> import ising2d
        >>> try:
        ...     ising2d.ground("kagome", 2, 2, [3, 4, 2, -5])
        ... except ising2d.Refusal as refusal:
        ...     print(refusal.number, refusal.name, refusal.value)
        19 BadMember 'kagome'
    """

    def __new__(cls, number: int = 0, *arguments: Any, **named: Any) -> Refusal:
        own = _CLASSES.get(number, cls) if cls is Refusal else cls
        return ValueError.__new__(own)

    def __init__(
        self,
        number: int,
        kept: Sequence[int] = (),
        value: Optional[str] = None,
        line: Optional[int] = None,
        words: Optional[Words] = None,
    ) -> None:
        """``words`` are a sentence and what is allowed, where more is known than the numbers tell."""
        reason = _reason_of(number, kept)
        self.number, self.kept = number, tuple(kept)
        self.value, self.line, self.words = value, line, words
        self.name = reason.name
        sentence, self.allowed = words or reason.over(self.kept)
        self.sentence = self._told(sentence)
        super().__init__(f"{self.name} ({number}): {self.sentence}")

    @property
    def code(self) -> RefusalCode:
        """The number of the refusal by its name."""
        return RefusalCode(self.number)

    def _told(self, text: str) -> str:
        if self.value is not None and not self.words:
            text += f": {self.value}"
        if self.line is not None:
            text = f"line {self.line}" + (", " if text.startswith("field ") else ": ") + text
        return f"{text} (allowed: {self.allowed})" if self.allowed else text

    def __reduce__(self) -> Tuple[Type[Refusal], Tuple[Any, ...]]:
        return Refusal, (self.number, self.kept, self.value, self.line, self.words)


class BadInstance(Refusal):
    """Numbers that give no lattice, graph or proof.

    >>> import ising2d
    >>> try:
    ...     ising2d.ground("square", 2, 2, [3, 4, 2])
    ... except ising2d.BadInstance as refusal:
    ...     print(refusal.sentence)
    there are 3 couplings (allowed: one for each bond of the lattice, 4)
    """


class BadText(Refusal):
    """A text that gives no instance: a wrong record, or no JSON.

    >>> import ising2d
    >>> try:
    ...     ising2d.read("square,2")
    ... except ising2d.BadText as refusal:
    ...     print(refusal.line, refusal.name)
    1 BadShape
    """


class TooLarge(Refusal):
    """An instance or a text above a limit: of spins, bonds, bytes, or the sum of the couplings' sizes.

    >>> import ising2d
    >>> try:
    ...     ising2d.ground("square", 1, 2, [2**45])
    ... except ising2d.TooLarge as refusal:
    ...     print(refusal.name)
    SumTooLarge
    """


class NotPlanar(Refusal):
    """A graph that is not planar, or a drawing with crossings.

    >>> import ising2d
    >>> points, bonds = [(0, 0), (1, 1), (0, 1), (1, 0)], [(0, 1), (2, 3)]
    >>> try:
    ...     ising2d.Graph.from_points(points, bonds, [1, 1])
    ... except ising2d.NotPlanar as refusal:
    ...     print(refusal.sentence)
    bonds 0 and 1 cross (allowed: a drawing without crossings)
    """


class NoSeam(Refusal):
    """A wall needs a seam, and the seam is empty.

    >>> import ising2d
    >>> try:
    ...     ising2d.wall("square", 1, 2, [1])
    ... except ising2d.NoSeam as refusal:
    ...     print(refusal.number)
    16
    """


class UnknownLaw(Refusal):
    """No law of disorder has this name.

    >>> import ising2d
    >>> try:
    ...     ising2d.draw("normal", 1, "square", 2, 2)
    ... except ising2d.UnknownLaw as refusal:
    ...     print(refusal.value)
    'normal'
    """


class BadTerminals(Refusal):
    """Terminals or a graph that have no T-join: an odd number, a node twice, or two components.

    >>> import ising2d
    >>> try:
    ...     ising2d.tjoin(2, [(0, 1, 5)], [0])
    ... except ising2d.BadTerminals as refusal:
    ...     print(refusal.name)
    OddTerminals
    """


class NoProofFound(RuntimeError):
    """``ground`` or ``wall`` of a graph above the limits of the program: the solver found no proof within
    the allowed memory, 4 GiB for the tables of a matching. The instance is fit, but without a proof there
    is no answer. This was never seen.

    >>> import ising2d
    >>> issubclass(ising2d.NoProofFound, ising2d.Refusal)
    False
    """


class LibraryMissing(ImportError):
    """The shared library is missing, or is another one. It is loaded at the first call.

    >>> import ising2d
    >>> issubclass(ising2d.LibraryMissing, ImportError)
    True
    """


_CODES = RefusalCode
_CLASSES: Dict[int, Type[Refusal]] = {
    **dict.fromkeys((_CODES.TOO_LONG, _CODES.TOO_MANY_SPINS, _CODES.TOO_MANY_BONDS), TooLarge),
    **dict.fromkeys((_CODES.SUM_TOO_LARGE, _CODES.JSON_TOO_LONG), TooLarge),
    **dict.fromkeys((_CODES.UNENDED, _CODES.BAD_NUMBER, _CODES.UNKNOWN_KIND), BadText),
    **dict.fromkeys((_CODES.BAD_SHAPE, _CODES.TRAILING, _CODES.BAD_JSON), BadText),
    **dict.fromkeys((_CODES.COUPLING_COUNT, _CODES.SELF_BOND, _CODES.BAD_ROTATION), BadInstance),
    **dict.fromkeys((_CODES.BAD_SEAM, _CODES.BAD_MEMBER), BadInstance),
    **dict.fromkeys((_CODES.ODD_TERMINALS, _CODES.BAD_TERMINAL, _CODES.NOT_JOINED), BadTerminals),
    _CODES.NOT_PLANAR: NotPlanar,
    _CODES.NO_SEAM: NoSeam,
    _CODES.UNKNOWN_LAW: UnknownLaw,
}


def numbers_of(line: str) -> Tuple[int, ...]:
    """The numbers of a line behind its first field."""
    return tuple(int(field) for field in line.strip().split(",")[1:])


def refusal_of(line: str, given: object = None, large: bool = False) -> Refusal:
    """The refusal of a line ``refused,NUMBER,..``, with the value that ``given`` has at the place, and its
    own words for it, where it has any; ``large`` is whether the call takes large instances."""
    number, *kept = numbers_of(line)
    shown, words = getattr(given, "_shown", None), getattr(given, "_words", None)
    value = shown(number, kept) if shown is not None else None
    own = words(number, kept) if words is not None else None
    if large and own is None:
        own = words_of("large", number, kept)
    return Refusal(number, kept, value, words=own)
