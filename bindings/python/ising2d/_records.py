"""Texts of instances: their records, and the lattice or graph that they give. This is the only reader of
records in the package; it keeps the rules of docs/FORMATS.md, with the limits of the library."""

from __future__ import annotations

import csv
import io
import json
import re
from typing import Any, Dict, Iterator, List, NamedTuple, Optional, Tuple, Union

from ._arrays import shortened
from ._errors import Member, Refusal, RefusalCode, words_of
from ._ffi import MOST_BONDS, MOST_SPINS
from ._lattices import KINDS, bond_count

_BLANKS = " \t"
_LARGEST, _INDEX = 2**63 - 1, 2**32 - 1
_NUMBER = re.compile(r"[+-]?[0-9]+", re.ASCII)
_LEAST_COLS = {"hexagonal": 2, "cylinder": 3}


class Record(NamedTuple):
    """A record: its number, the line on which it begins, counted from 1, and its fields, without the
    blanks round them and without empty ones at the end."""

    number: int
    line: int
    fields: List[str]

    def is_skipped(self) -> bool:
        """Whether it is passed over."""
        return not self.fields or self.fields[0].startswith("#")


def records_of(text: str) -> Iterator[Record]:
    """The records of a text, numbered as the program numbers them: empty lines are none.

    >>> [(record.number, record.line) for record in records_of("square,1,2\\n\\n5\\nend\\n")]
    [(0, 1), (1, 3), (2, 4)]
    """
    limit = csv.field_size_limit(max(131072, len(text) + 1))
    try:
        # Older readers of csv take no NUL.
        plain = text.lstrip("\ufeff").replace("\0", "\ufffd")
        reader = csv.reader(io.StringIO(plain, newline=""))
        before = number = 0
        for row in reader:
            line, before = before + 1, reader.line_num
            if row:
                yield Record(number, line, _fields(row))
                number += 1
    finally:
        csv.field_size_limit(limit)


def _fields(row: List[str]) -> List[str]:
    fields = [field.strip(_BLANKS) for field in row]
    while fields and not fields[-1]:
        fields.pop()
    return fields


def is_json(text: str) -> bool:
    """Whether the program reads the text as JSON."""
    return text.lstrip("\ufeff").lstrip(" \t\r\n").startswith("{")


def as_text(given: Union[str, bytes]) -> str:
    """The input as a text, with marks where bytes are no UTF-8."""
    if isinstance(given, str):
        return given
    if isinstance(given, (bytes, bytearray, memoryview)):
        return bytes(given).decode("utf-8", "replace")
    raise TypeError(f"expected a text or bytes, not {shortened(given)}")


def object_of(text: str) -> Dict[str, Any]:
    """The object of a JSON text. Raises the refusal of one that is none."""
    try:
        found = json.loads(text.lstrip("\ufeff"), parse_int=_json_number, parse_constant=_no_constant)
    except ValueError as fault:
        raise Refusal(RefusalCode.BAD_JSON, (), str(fault)) from None
    except RecursionError:
        raise Refusal(RefusalCode.BAD_JSON, (), "nested too deep") from None
    if not isinstance(found, dict):
        raise Refusal(RefusalCode.BAD_JSON, (), "expected an object")
    return found


def _json_number(digits: str) -> Union[int, float]:
    """A whole number of JSON. What the program takes for none of 64 bits is given as a float."""
    return float("nan") if digits == "-0" or len(digits) > 20 else int(digits)


def _no_constant(name: str) -> None:
    raise ValueError(f"{name} is not valid JSON")


class LatticeText(NamedTuple):
    """A lattice as a text gives it; ``seam`` is None if there is no record of one."""

    kind: str
    rows: int
    cols: int
    couplings: List[int]
    seam: Optional[List[int]]


class GraphText(NamedTuple):
    """A graph as a text gives it."""

    n: int
    bonds: List[Tuple[int, int, int]]
    rotation: List[List[int]]
    seam: List[int]


Read = Union[LatticeText, GraphText]


def _refuse(code: RefusalCode, *kept: int) -> Refusal:
    return Refusal(code, kept)


def _number(field: str) -> Optional[int]:
    # Long numbers are out of every range, and would take long to convert.
    if len(field) > 40 or not _NUMBER.fullmatch(field):
        return _long_number(field)
    value = int(field)
    return value if -_LARGEST <= value <= _LARGEST else None


def _long_number(field: str) -> Optional[int]:
    """A number of many digits, which may be zeros in front."""
    if not _NUMBER.fullmatch(field):
        return None
    sign = -1 if field[0] == "-" else 1
    digits = field.lstrip("+-").lstrip("0")
    return None if len(digits) > 19 else _number(str(sign * int(digits or "0")))


class _Reader:
    """Reads an instance from records, with the tests of docs/FORMATS.md in their order."""

    def __init__(self, text: str) -> None:
        self.rows = (record for record in records_of(text) if not record.is_skipped())

    def next(self) -> Record:
        found = next(self.rows, None)
        if found is None:
            raise _refuse(RefusalCode.UNENDED)
        return found

    def trailing(self) -> None:
        found = next(self.rows, None)
        if found is not None:
            raise _refuse(RefusalCode.TRAILING, found.number)

    def numbers(self, record: Record, first: int, least: int = -_LARGEST, most: int = _LARGEST) -> List[int]:
        """The numbers of the fields from one on, all within these limits."""
        try:
            # Nearly all texts are good, and read at once.
            found = list(map(int, record.fields[first:]))
            good = all(map(_NUMBER.fullmatch, record.fields[first:]))
        except ValueError:
            good = False
        if good and (not found or (min(found) >= least and max(found) <= most)):
            return found
        return [self.number(record, place, least, most) for place in range(first, len(record.fields))]

    def number(self, record: Record, place: int, least: int = -_LARGEST, most: int = _LARGEST) -> int:
        found = _number(record.fields[place])
        if found is None or not least <= found <= most:
            raise _refuse(RefusalCode.BAD_NUMBER, record.number, place)
        return found

    def instance(self) -> Read:
        record = self.next()
        kind = record.fields[0]
        if kind != "general" and kind not in KINDS:
            raise _refuse(RefusalCode.UNKNOWN_KIND, record.number)
        if len(record.fields) != (2 if kind == "general" else 3):
            raise _refuse(RefusalCode.BAD_SHAPE, record.number)
        if kind == "general":
            n = self.number(record, 1, 1)
            self.fit(n)
            return self._general(n)
        rows, cols = self.number(record, 1, 1), self.number(record, 2, _LEAST_COLS.get(kind, 1))
        self.fit(rows * cols)
        return self._lattice(kind, rows, cols)

    def fit(self, n: int) -> None:
        if n > MOST_SPINS:
            words = words_of("large", RefusalCode.TOO_MANY_SPINS, (n,))
            raise Refusal(RefusalCode.TOO_MANY_SPINS, (n,), words=words)

    def _lattice(self, kind: str, rows: int, cols: int) -> LatticeText:
        couplings: List[int] = []
        seam: Optional[List[int]] = None
        while True:
            record = self.next()
            if record.fields[0] == "seam":
                seam = self._seam(record, seam)
            elif record.fields[0] == "end":
                self._end(record)
                wanted = bond_count(kind, rows, cols)
                if len(couplings) != wanted:
                    raise _refuse(RefusalCode.COUPLING_COUNT, len(couplings), wanted)
                self.judge_seam(seam or [], wanted)
                return LatticeText(kind, rows, cols, couplings, seam)
            else:
                couplings += self.numbers(record, 0)

    def _general(self, n: int) -> GraphText:
        bonds: List[Tuple[int, int, int]] = []
        lists: Dict[int, List[int]] = {}
        seam: Optional[List[int]] = None
        while True:
            record = self.next()
            word = record.fields[0]
            if word == "bond":
                bonds.append(self._bond(record, n, len(bonds)))
            elif word == "rot":
                spin, darts = self._rot(record, n)
                if spin in lists:
                    raise _refuse(RefusalCode.BAD_SHAPE, record.number)
                lists[spin] = darts
            elif word == "seam":
                seam = self._seam(record, seam)
            elif word == "end":
                self._end(record)
                self.judge_rotation(n, bonds, lists)
                self.judge_seam(seam or [], len(bonds))
                return GraphText(n, bonds, [lists.get(spin, []) for spin in range(n)], seam or [])
            else:
                raise _refuse(RefusalCode.UNKNOWN_KIND, record.number)

    def _bond(self, record: Record, n: int, count: int) -> Tuple[int, int, int]:
        if len(record.fields) != 4:
            raise _refuse(RefusalCode.BAD_SHAPE, record.number)
        u, v = (self.number(record, place, 0, n - 1) for place in (1, 2))
        coupling = self.number(record, 3)
        if count == MOST_BONDS:
            raise _refuse(RefusalCode.TOO_MANY_BONDS, MOST_BONDS + 1)
        if u == v:
            raise _refuse(RefusalCode.SELF_BOND, count)
        return u, v, coupling

    def _rot(self, record: Record, n: int) -> Tuple[int, List[int]]:
        if len(record.fields) == 1:
            raise _refuse(RefusalCode.BAD_SHAPE, record.number)
        return self.number(record, 1, 0, n - 1), self.numbers(record, 2, 0, _INDEX)

    def _seam(self, record: Record, before: Optional[List[int]]) -> List[int]:
        if before is not None:
            raise _refuse(RefusalCode.BAD_SHAPE, record.number)
        return self.numbers(record, 1, 0, _INDEX)

    def _end(self, record: Record) -> None:
        if len(record.fields) > 1:
            raise _refuse(RefusalCode.BAD_SHAPE, record.number)

    def judge_seam(self, seam: List[int], bonds: int) -> None:
        seen = set()
        for bond in seam:
            if bond >= bonds or bond in seen:
                raise _refuse(RefusalCode.BAD_SEAM, bond)
            seen.add(bond)

    def judge_rotation(
        self, n: int, bonds: List[Tuple[int, int, int]], lists: Dict[int, List[int]]
    ) -> None:
        own: List[List[int]] = [[] for _ in range(n)]
        for k, (u, v, _) in enumerate(bonds):
            own[u].append(2 * k)
            own[v].append(2 * k + 1)
        for spin, wanted in enumerate(own):
            found, missing = lists.get(spin, []), dict.fromkeys(wanted)
            for dart in found:
                if dart not in missing:
                    raise _refuse(RefusalCode.BAD_ROTATION, spin, dart)
                del missing[dart]
            if missing:
                raise _refuse(RefusalCode.BAD_ROTATION, spin, next(iter(missing)))


class Result(NamedTuple):
    """A result as a text gives it: the energy, the spins, and loops with their weights."""

    energy: int
    spins: List[int]
    loops: List[Tuple[int, List[int]]]


def _result(reader: _Reader) -> Result:
    record = reader.next()
    _word(record, "energy", 2)
    energy = reader.number(record, 1)
    record = reader.next()
    _word(record, "spins")
    spins = [_spin(reader, record, place) for place in range(1, len(record.fields))]
    loops: List[Tuple[int, List[int]]] = []
    while True:
        record = reader.next()
        if record.fields[0] == "end":
            _word(record, "end", 1)
            return Result(energy, spins, loops)
        _word(record, "loop")
        if len(record.fields) == 1:
            raise _refuse(RefusalCode.BAD_SHAPE, record.number)
        loops.append((reader.number(record, 1), reader.numbers(record, 2, 0, _INDEX)))


def _word(record: Record, word: str, count: Optional[int] = None) -> None:
    """Raises a refusal for a record that is none of this word, or has another number of fields."""
    if record.fields[0] != word:
        raise _refuse(RefusalCode.UNKNOWN_KIND, record.number)
    if count is not None and len(record.fields) != count:
        raise _refuse(RefusalCode.BAD_SHAPE, record.number)


def _spin(reader: _Reader, record: Record, place: int) -> int:
    found = reader.number(record, place, -1, 1)
    if found == 0:
        raise _refuse(RefusalCode.BAD_NUMBER, record.number, place)
    return found


MEMBERS: Dict[str, Tuple[str, ...]] = {
    "general": ("kind", "n", "bonds", "rotation", "seam"),
    **{kind: ("kind", "rows", "cols", "couplings", "seam") for kind in KINDS},
}


def _bad(member: Member, entry: int = 0) -> Refusal:
    return Refusal(RefusalCode.BAD_MEMBER, (member, entry))


def _is_whole(value: object, least: int = -_LARGEST, most: int = _LARGEST) -> bool:
    return type(value) is int and least <= value <= most


def _size(members: Dict[str, Any], name: str, member: Member, least: int) -> int:
    found = members.get(name)
    if not _is_whole(found, least):
        raise _bad(member)
    return int(members[name])


def _list(members: Dict[str, Any], name: str, member: Member) -> List[Any]:
    found = members.get(name)
    if not isinstance(found, list):
        raise _bad(member)
    return found


def _first_bad(values: List[Any], least: int, most: int) -> int:
    """The first value that is not a whole number within these limits; -1 if there is none."""
    if set(map(type, values)) <= {int} and (not values or (min(values) >= least and max(values) <= most)):
        return -1
    return next(i for i, value in enumerate(values) if not _is_whole(value, least, most))


def _whole_list(
    members: Dict[str, Any], name: str, member: Member, least: int = -_LARGEST, most: int = _LARGEST
) -> List[int]:
    found = _list(members, name, member)
    wrong = _first_bad(found, least, most)
    if wrong >= 0:
        raise _bad(member, wrong)
    return found


def object_instance(members: Dict[str, Any]) -> Read:
    """The instance of an object of JSON, by the tests of docs/FORMATS.md in their order."""
    reader, kind = _Reader(""), members.get("kind")
    if not isinstance(kind, str) or kind not in MEMBERS:
        raise _bad(Member.KIND)
    if any(name not in MEMBERS[kind] for name in members):
        raise _bad(Member.OTHER)
    if kind == "general":
        return _object_graph(reader, members)
    rows = _size(members, "rows", Member.ROWS, 1)
    cols = _size(members, "cols", Member.COLS, _LEAST_COLS.get(kind, 1))
    reader.fit(rows * cols)
    couplings = _whole_list(members, "couplings", Member.COUPLINGS)
    seam = _whole_list(members, "seam", Member.SEAM, 0, _INDEX) if "seam" in members else None
    wanted = bond_count(kind, rows, cols)
    if len(couplings) != wanted:
        raise _refuse(RefusalCode.COUPLING_COUNT, len(couplings), wanted)
    reader.judge_seam(seam or [], wanted)
    return LatticeText(kind, rows, cols, couplings, seam)


def _object_graph(reader: _Reader, members: Dict[str, Any]) -> GraphText:
    n = _size(members, "n", Member.N, 1)
    reader.fit(n)
    bonds = _list(members, "bonds", Member.BONDS)
    for k, bond in enumerate(bonds):
        is_bond = isinstance(bond, list) and len(bond) == 3 and _first_bad(bond[:2], 0, n - 1) < 0
        if not is_bond or not _is_whole(bond[2]):
            raise _bad(Member.BONDS, k)
    lists = _list(members, "rotation", Member.ROTATION)
    if len(lists) != n:
        raise _bad(Member.ROTATION)
    for spin, own in enumerate(lists):
        if not isinstance(own, list) or _first_bad(own, 0, _INDEX) >= 0:
            raise _bad(Member.ROTATION, spin)
    seam = _whole_list(members, "seam", Member.SEAM, 0, _INDEX) if "seam" in members else []
    if len(bonds) > MOST_BONDS:
        raise _refuse(RefusalCode.TOO_MANY_BONDS, MOST_BONDS + 1)
    triples = [(u, v, j) for u, v, j in bonds]
    for k, (u, v, _) in enumerate(triples):
        if u == v:
            raise _refuse(RefusalCode.SELF_BOND, k)
    reader.judge_rotation(n, triples, dict(enumerate(lists)))
    reader.judge_seam(seam, len(triples))
    return GraphText(n, triples, lists, seam)


def instance_in(text: str) -> Read:
    """The instance of a text of records and nothing behind it."""
    reader = _Reader(text)
    found = reader.instance()
    reader.trailing()
    return found


def proof_in(text: str) -> Tuple[Read, Result]:
    """The instance and the result behind it of a text of records."""
    reader = _Reader(text)
    found, result = reader.instance(), _result(reader)
    reader.trailing()
    return found, result
