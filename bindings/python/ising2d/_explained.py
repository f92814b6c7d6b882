"""Refusals of texts, with the line, the value, and what is allowed."""

from __future__ import annotations

import json
from typing import Any, Dict, List, Optional, Tuple

from ._errors import Member, Refusal, RefusalCode, member_name, words_of
from ._lattices import KINDS
from ._records import MEMBERS, Record, is_json, object_of, records_of

_NUMBER = "a whole number from -(2**63 - 1) to 2**63 - 1"
_LONG = "a whole number from 0 to 4294967295"
_KINDS = ", ".join((*KINDS, "general"))

# For each first field: the form of its record, and what each of its fields may be, the last of all others.
_FORMS: Dict[str, str] = {
    "square": "square,ROWS,COLS",
    "triangular": "triangular,ROWS,COLS",
    "hexagonal": "hexagonal,ROWS,COLS",
    "cylinder": "cylinder,ROWS,COLS",
    "general": "general,SPINS",
    "bond": "bond,SPIN,SPIN,COUPLING",
    "rot": "rot,SPIN,DART,.. once for each spin",
    "seam": "seam,BOND,.. once",
    "end": "end alone",
    "energy": "energy,ENERGY",
    "loop": "loop,WEIGHT,BOND,..",
    "graph": "graph,NODES",
    "edge": "edge,NODE,NODE,WEIGHT",
    "term": "term,NODE,.. once",
}
_RANGES: Dict[str, List[str]] = {
    "square": ["rows: 1 or more", "columns: 1 or more"],
    "triangular": ["rows: 1 or more", "columns: 1 or more"],
    "hexagonal": ["rows: 1 or more", "columns: 2 or more"],
    "cylinder": ["rows: 1 or more", "columns: 3 or more"],
    "general": ["spins: 1 or more"],
    "bond": ["a spin from 0 to the number of spins less 1"] * 2 + ["a coupling: " + _NUMBER],
    "rot": ["a spin from 0 to the number of spins less 1", "a dart: " + _LONG],
    "seam": ["a bond: " + _LONG],
    "energy": [_NUMBER],
    "spins": ["1 or -1"],
    "loop": ["a weight: " + _NUMBER, "a bond: " + _LONG],
    "graph": ["nodes: 1 or more"],
    "edge": ["a node from 0 to the number of nodes less 1"] * 2 + ["a weight from 0 to 2**63 - 1"],
    "term": ["a node: " + _LONG],
}


def _words(command: str, first: bool, general: bool, behind: bool) -> str:
    """The first fields that are allowed at a place."""
    if command in ("tjoin", "postman"):
        inner = "edge, term, end" if command == "tjoin" else "edge, end"
        return "graph" if first else inner
    if first:
        return _KINDS
    if behind:
        return "energy, then spins, then loop, then end"
    return "bond, rot, seam, end" if general else "couplings, seam, end"


_OF_RECORDS = (
    RefusalCode.BAD_NUMBER,
    RefusalCode.UNKNOWN_KIND,
    RefusalCode.BAD_SHAPE,
    RefusalCode.TRAILING,
)


class _Place:
    """The record of a refusal, and what precedes it."""

    def __init__(self, text: str, number: int) -> None:
        self.records = [record for record in records_of(text) if record.number <= number]
        self.record: Optional[Record] = None
        if self.records and self.records[-1].number == number:
            self.record = self.records.pop()
        self.before = [record for record in self.records if not record.is_skipped()]

    def word(self) -> str:
        return self.record.fields[0] if self.record and self.record.fields else ""

    def allowed(self, field: int) -> str:
        ranges = _RANGES.get(self.word())
        if ranges is None:
            return "a coupling: " + _NUMBER
        return ranges[min(max(field - 1, 0), len(ranges) - 1)]

    def words(self, command: str) -> str:
        general = bool(self.before) and self.before[0].fields[0] == "general"
        behind = any(record.fields[0] == "end" for record in self.before)
        return _words(command, not self.before, general, behind)


def explained(refusal: Refusal, text: str, command: str) -> Refusal:
    """The refusal of a text by a command, with the line, the value, and what is allowed."""
    is_graph = command in ("tjoin", "postman")
    if is_json(text) and command != "check" and not is_graph:
        return _about_json(refusal, text)
    if refusal.number in _OF_RECORDS and refusal.kept:
        place = _Place(text, refusal.kept[0])
        if place.record is not None:
            return _about_record(refusal, place, place.record, command)
    words = words_of("graph", refusal.number, refusal.kept) if is_graph else refusal.words
    return Refusal(refusal.number, refusal.kept, refusal.value, _line_of(refusal, text), words)


def _about_record(refusal: Refusal, place: _Place, record: Record, command: str) -> Refusal:
    """The refusal with its record."""
    number, kept = refusal.number, refusal.kept
    told: Tuple[object, ...]
    if number == RefusalCode.BAD_NUMBER:
        field = kept[1]
        value = repr(record.fields[field]) if field < len(record.fields) else "a missing field"
        told, allowed = (field + 1, value), place.allowed(field)
    elif number == RefusalCode.UNKNOWN_KIND:
        value = repr(place.word())
        told, allowed = (value,), place.words(command)
    else:
        value = repr(",".join(record.fields))
        form = _FORMS.get(place.word(), "a wrong number of fields")
        told, allowed = (value,), form if number == RefusalCode.BAD_SHAPE else ""
    return Refusal(number, kept, value, record.line, words_of("line", number, told, allowed))


def _about_json(refusal: Refusal, text: str) -> Refusal:
    try:
        members = object_of(text)
    except Refusal as fault:
        return fault if refusal.number == RefusalCode.BAD_JSON else refusal
    return Refusal(refusal.number, refusal.kept, member_shown(members, refusal))


def member_shown(members: Dict[str, Any], refusal: Refusal) -> Optional[str]:
    """The wrong member of an object of JSON, or its wrong entry."""
    if refusal.number != RefusalCode.BAD_MEMBER:
        return None
    place, entry = refusal.kept
    if place == Member.OTHER:
        allowed = MEMBERS.get(str(members.get("kind")), ())
        return next((repr(name) for name in members if name not in allowed), None)
    name = member_name(place)
    if name not in members:
        return f"there is no member {name}"
    value = members[name]
    if isinstance(value, list) and entry < len(value):
        value = value[entry]
    return f"{json.dumps(value):.60}"


_RECORD_OF: Dict[int, str] = {
    RefusalCode.SELF_BOND: "bond",
    RefusalCode.BAD_ROTATION: "rot",
    RefusalCode.BAD_SEAM: "seam",
    RefusalCode.ODD_TERMINALS: "term",
    RefusalCode.BAD_TERMINAL: "term",
}


def _line_of(refusal: Refusal, text: str) -> Optional[int]:
    """The line of the record that a refusal means by a number of another kind."""
    sought = _RECORD_OF.get(refusal.number)
    if sought is None:
        return None
    own = [record for record in records_of(text) if record.fields and record.fields[0] == sought]
    if refusal.number == RefusalCode.SELF_BOND:
        own = own[refusal.kept[0] : refusal.kept[0] + 1]
    if refusal.number == RefusalCode.BAD_ROTATION:
        own = [record for record in own if record.fields[1:2] == [str(refusal.kept[0])]]
    return own[0].line if own else None
