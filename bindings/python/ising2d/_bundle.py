"""Certified sets: a folder of instances with their proved minima and proofs, and a judge of them."""

from __future__ import annotations

import json
import shutil
from itertools import islice
from pathlib import Path
from typing import Any, Dict, Iterable, Iterator, Optional, Sequence, Union

from ._answers import Ground
from ._draws import Share, drawn_lattices
from ._instances import Instance
from ._threads import in_order

SET, JUDGE = "set.jsonl", "judge.py"


def entry_of(name: str, instance: Instance, found: Ground) -> Dict[str, object]:
    """One line of a set: the instance with a name, its least energy, a ground state and its proof."""
    entry: Dict[str, object] = {"id": name, **instance.as_json()}
    entry.update(energy=found.energy, spins=found.spins.tolist())
    if found.nest is not None:
        parents, radii, regions, at_radii = (part.tolist() for part in found.nest)
        entry["nest"] = {"parents": parents, "radii": radii, "regions": regions, "at_radii": at_radii}
    else:
        entry["loops"] = [[loop.weight, list(loop.bonds)] for loop in found.loops]
    return entry


def bundle(
    folder: Union[str, Path], instances: Iterable[Instance], nest: Optional[bool] = None, name: str = "i"
) -> int:
    """Writes a certified set: ``set.jsonl``, a line of JSON for each instance with its least energy, a
    ground state and its proof (loops up to 2048 spins, else a nest, or with ``nest=True`` always), and
    ``judge.py``, plain Python 3 that reads the set and says yes or no for each. Returns the number of
    instances. The folder is made if it is missing.

    >>> import tempfile
    >>> with tempfile.TemporaryDirectory() as folder:
    ...     bundle(folder, [__import__("ising2d").draw("pm", 1, "square", 3, 3)])
    1
    """
    place = Path(folder)
    place.mkdir(parents=True, exist_ok=True)
    count = 0
    with open(place / SET, "w", encoding="ascii") as file:
        for line in _lines(instances, nest, name):
            file.write(line)
            count += 1
    shutil.copyfile(Path(__file__).with_name(JUDGE), place / JUDGE)
    return count


def _lines(instances: Iterable[Instance], nest: Optional[bool], name: str) -> Iterator[str]:
    def solved(task: Any) -> str:
        number, instance = task
        found = instance.ground(nest=nest)
        return json.dumps(entry_of(f"{name}{number}", instance, found), separators=(",", ":")) + "\n"

    return in_order(solved, enumerate(instances))


def write_bundle(
    folder: Path, drawn: Sequence[Any], count: int, p: Share = None, nest: bool = False
) -> int:
    """The same of instances that are drawn one after another: a law, a seed, a kind, rows and columns."""
    law, seed, kind, rows, cols = drawn
    lattices = islice(drawn_lattices(law, seed, kind, rows, cols, p), count)
    return bundle(folder, lattices, nest or None, f"{law}-{seed}-")
