"""The lattice or graph that a text of records, or an object of JSON, gives."""

from __future__ import annotations

from typing import Any, Dict, Iterable, Union, cast

from ._errors import Refusal
from ._explained import explained, member_shown
from ._graphs import Graph
from ._instances import Instance
from ._lattices import Kind, Lattice
from ._records import (
    GraphText,
    Read,
    Result,
    as_text,
    instance_in,
    is_json,
    object_instance,
    object_of,
    proof_in,
)
from ._verdicts import Verdict


def read(given: Union[str, bytes]) -> Instance:
    """The lattice or graph of a text, of records or of JSON, of every size that the library takes. Raises
    the ``Refusal`` of docs/FORMATS.md that it meets first.

    >>> read("square,2,2\\n3,4\\n2,-5\\nend\\n").ground().energy
    -10
    >>> read('{"kind":"general","n":2,"bonds":[[0,1,7]],"rotation":[[0],[1]]}').ground().energy
    -7
    """
    text = as_text(given)
    if is_json(text):
        return instance_of(object_of(text))
    try:
        return _made(instance_in(text))
    except Refusal as refusal:
        raise explained(refusal, text, "energy") from None


def read_proof(given: Union[str, bytes]) -> Verdict:
    """The verdict on the result that follows the instance of a text of records, as of ``check``."""
    text = as_text(given)
    try:
        found, result = proof_in(text)
    except Refusal as refusal:
        raise explained(refusal, text, "check") from None
    return _judged(_made(found), result)


def _judged(instance: Instance, result: Result) -> Verdict:
    return instance.check(result.energy, result.spins, result.loops)


def instance_of(members: Dict[str, Any]) -> Instance:
    """The lattice or graph of an object of JSON."""
    try:
        return _made(object_instance(members))
    except Refusal as refusal:
        value, words = member_shown(members, refusal), refusal.words
        raise Refusal(refusal.number, refusal.kept, value, words=words) from None


def _made(found: Read) -> Instance:
    if isinstance(found, GraphText):
        return Graph(found.n, found.bonds, found.rotation, found.seam)
    lattice = Lattice(cast(Kind, found.kind), found.rows, found.cols, found.couplings)
    return lattice if found.seam is None else with_seam(lattice, found.seam)


def with_seam(lattice: Lattice, seam: Iterable[int]) -> Graph:
    """A lattice with a seam of its own, which only a general graph can have."""
    bonds = [(u, v, j) for (u, v), j in zip(lattice.ends(), lattice.couplings.tolist())]
    labels, edges = lattice.node_labels(), lattice.edge_labels()
    return Graph(lattice.n, bonds, lattice.darts(), list(seam), labels, edges, lattice.places())
