"""What all answers have in common, and the verdict on a proof."""

from __future__ import annotations

from collections.abc import Sequence
from dataclasses import dataclass, fields
from typing import Any, Dict, List, Tuple

from ._arrays import shortened
from ._errors import verdict_sentence


def _plain(value: Any) -> Any:
    """The value with each array as a tuple, so that it can be compared and hashed."""
    if isinstance(value, (str, bytes, int, float, type(None))):
        return value
    if isinstance(value, dict):
        return frozenset(value.items())
    if hasattr(value, "tolist"):
        return tuple(value.tolist())
    if isinstance(value, Sequence):
        return tuple(_plain(entry) for entry in value)
    return value


def _members(answer: Any) -> List[Tuple[str, Any]]:
    """The names and values of an answer's numbers."""
    return [(entry.name, getattr(answer, entry.name)) for entry in fields(answer) if entry.compare]


class Answer:
    """What is common to all answers: they are equal if all their numbers are."""

    def _numbers(self) -> Tuple[Any, ...]:
        return tuple(_plain(value) for _, value in _members(self))

    def __eq__(self, other: object) -> bool:
        if type(self) is not type(other):
            return NotImplemented
        return isinstance(other, Answer) and self._numbers() == other._numbers()

    def __hash__(self) -> int:
        return hash(self._numbers())

    def __repr__(self) -> str:
        own = ", ".join(f"{name}={_shown(value)}" for name, value in _members(self))
        return f"{type(self).__name__}({own})"

    def as_dict(self) -> Dict[str, object]:
        """The numbers by their names, in lists and dictionaries, as JSON can have them."""
        return {name: _json(value) for name, value in _members(self)}


def _shown(value: Any) -> str:
    """A value in a line: of a long array the number of its entries."""
    if hasattr(value, "tolist"):
        return str(value.tolist()) if len(value) <= 12 else f"<{len(value)} numbers>"
    return repr(value) if isinstance(value, Answer) else shortened(value)


def _json(value: Any) -> Any:
    """The value in lists and dictionaries."""
    if isinstance(value, Answer):
        return value.as_dict()
    if isinstance(value, tuple) and hasattr(value, "_asdict"):
        return {name: _json(entry) for name, entry in value._asdict().items()}
    if hasattr(value, "tolist"):
        return value.tolist()
    if isinstance(value, dict):
        return {str(name): _json(entry) for name, entry in value.items()}
    if isinstance(value, Sequence) and not isinstance(value, str):
        return [_json(entry) for entry in value]
    return value


@dataclass(frozen=True, eq=False, repr=False)
class Verdict(Answer):
    """The verdict on a proof: ``number`` is 0 if it holds, else the number of the first failed check,
    ``kept`` are the numbers that show it, and ``sentence`` says it. A verdict is true if the proof holds.
    ``of`` is the kind of proof: the loops or the nest of a ground state, or the cuts of a T-join or of a
    closed walk.

    >>> import ising2d
    >>> print(ising2d.check("square", 1, 2, [7], 7, [1, 1], []))
    no: the spins have the energy -7, not the stated one
    """

    number: int
    kept: Tuple[int, ...] = ()
    of: str = "loops"

    def __bool__(self) -> bool:
        return self.number == 0

    @property
    def sentence(self) -> str:
        """The verdict in words."""
        return verdict_sentence(self.number, self.kept, self.of)

    def __str__(self) -> str:
        return ("yes: " if self else "no: ") + self.sentence
