"""Whole runs of the program: words and an input in, a status and a text out; and what a text says."""

from __future__ import annotations

import json
from typing import Any, Dict, List, Protocol, Sequence, Tuple, Union

from ._answers import Run
from ._arrays import shortened
from ._errors import refusal_of
from ._ffi import DONE, NO_MEMORY, raise_status, run_of
from ._loops import Loop
from ._threads import interruptible

Words = Sequence[str]


def run(words: Words, input: Union[str, bytes] = b"") -> Run:
    """Runs the program: its words and its standard input in, its exit status and its text out.

    0 is answered, 1 refused, 2 usage, and 3 a checked proof that fails. Raises ``MemoryError``,
    ``TypeError``, and ``ValueError`` where a word has a NUL in it.

    >>> import ising2d
    >>> ising2d.run(["gen", "one", "1", "square", "1", "2"]).text
    'square,1,2\\n1\\nend\\n'
    """
    status, text = _whole(_joined(words), _bytes(input))
    return Run(status, text.decode())


def _joined(words: Words) -> bytes:
    """The words as they cross."""
    if isinstance(words, (str, bytes)):
        raise TypeError(f"words: expected a list of texts, not the one text {words!r}")
    crossing = b""
    for word in words:
        if not isinstance(word, str):
            raise TypeError(f"words: expected a text, not {shortened(word)}")
        if "\0" in word:
            raise ValueError(f"words: {word!r} has a NUL in it")
        crossing += word.encode("utf-8", "surrogateescape") + b"\0"
    return crossing


def _bytes(given: Union[str, bytes]) -> bytes:
    if isinstance(given, str):
        return given.encode("utf-8", "surrogateescape")
    if isinstance(given, (bytes, bytearray, memoryview)):
        return bytes(given)
    raise TypeError(f"input: expected a text or bytes, not {shortened(given)}")


def _whole(words: bytes, given: bytes) -> Tuple[int, bytes]:
    """The status and the text. Which runs are short is not known, so each is waited for."""
    status, text, length = interruptible(True, run_of, words, given, 65536)
    if length > len(text):
        status, text, length = interruptible(True, run_of, words, given, length)
    if status == NO_MEMORY:
        raise_status(status)
    return status, text


def answered(words: Words, input: Union[str, bytes] = b"", given: Any = None) -> str:
    """The text of a run that is answered. Raises ``Refusal``, with the value that ``given`` has."""
    found = run(words, input)
    if found.status == 1:
        raise refusal_of(found.text, given)
    if found.status != DONE:
        raise ValueError(f"{' '.join(words)}: {found.text.strip()}")
    return found.text


class _AsJson(Protocol):
    def as_json(self) -> Dict[str, object]: ...


def json_of(given: _AsJson) -> str:
    """An instance as one JSON object."""
    return json.dumps(given.as_json())


def records_in(text: str) -> List[Tuple[str, List[str]]]:
    """The first field of each line in front of the end, with the other fields."""
    lines = [line.split(",") for line in text.splitlines()]
    return [(fields[0], fields[1:]) for fields in lines if fields[0] != "end"]


def numbers(fields: Sequence[str]) -> List[int]:
    """Fields as numbers."""
    return [int(field) for field in fields]


def one_of(text: str, name: str) -> List[int]:
    """The numbers of the only line with this first field."""
    return next(numbers(fields) for first, fields in records_in(text) if first == name)


def weighted(text: str, name: str) -> List[Tuple[int, Tuple[int, ...]]]:
    """The weight and the members of each line with this first field: loops, or cuts."""
    rows = [numbers(fields) for first, fields in records_in(text) if first == name]
    return [(row[0], tuple(row[1:])) for row in rows]


def loops_in(text: str) -> Tuple[Loop, ...]:
    """The loops of a text."""
    return tuple(Loop(*row) for row in weighted(text, "loop"))


def members_of(text: str) -> Dict[str, Any]:
    """The members of a report."""
    found: Dict[str, Any] = json.loads(text)
    return found
