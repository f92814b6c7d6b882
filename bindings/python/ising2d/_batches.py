"""Ground states of many instances, side by side in threads."""

from __future__ import annotations

from typing import Any, Iterable, List, Optional, Sequence, Union

from ._answers import Ground
from ._instances import Instance
from ._lattices import Lattice
from ._threads import in_order
from ._types import Whole


def ground_many(
    instances: Iterable[Union[Instance, Sequence[Any]]],
    loops: Optional[bool] = None,
    threads: Optional[Whole] = None,
    nest: Optional[bool] = None,
) -> List[Ground]:
    """A ground state of each instance, side by side in threads: the lock of Python is free while the
    library works. An instance is a ``Lattice``, a ``Graph``, or the arguments of ``ground``.

    >>> import ising2d
    >>> square = ("square", 2, 2, [3, 4, 2, -5])
    >>> [found.energy for found in ising2d.ground_many([square] * 3)]
    [-10, -10, -10]
    """
    return list(in_order(lambda given: _instance(given).ground(loops, nest), instances, threads))


def _instance(given: Union[Instance, Sequence[Any]]) -> Instance:
    if isinstance(given, Instance):
        return given
    if isinstance(given, (tuple, list)) and len(given) == 4:
        return Lattice(*given)
    raise TypeError(
        f"instances: expected a Lattice, a Graph or the arguments of ground, not {given!r:.60}"
    )
