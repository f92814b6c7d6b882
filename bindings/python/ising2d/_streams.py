"""Many instances in one stream: a line of JSON in, a line of JSON out, by several processes."""

from __future__ import annotations

import json
from typing import Any, Callable, Dict, Generator, Iterable, List, NamedTuple, Tuple

from ._errors import NoProofFound, Refusal
from ._instances import Instance
from ._loops import Loop
from ._networks import Network
from ._reading import instance_of
from ._records import object_of
from ._workers import by_processes


class Line(NamedTuple):
    """An answered line: its text, the exit status that it has by itself, and the size of its input."""

    text: str
    status: int
    size: int


def _loops(loops: Iterable[Loop]) -> List[Dict[str, Any]]:
    """Loops as a report has them."""
    return [{"bonds": list(loop.bonds), "y": loop.weight} for loop in loops]


def _energy(given: Instance) -> Dict[str, Any]:
    found = given.ground(loops=False)
    return {"energy": found.energy, "spins": found.spins.tolist()}


def _ground(given: Instance) -> Dict[str, Any]:
    found = given.ground(loops=True)
    return {"energy": found.energy, "spins": found.spins.tolist(), "loops": _loops(found.loops)}


def _wall(given: Instance) -> Dict[str, Any]:
    return given.wall().as_dict()


def _bonds(given: Instance) -> Dict[str, Any]:
    return {"costs": given.costs().tolist()}


def _clusters(given: Instance) -> Dict[str, Any]:
    found = given.clusters()
    return {"clusters": list(found), "sizes": {str(name): size for name, size in found.sizes.items()}}


def _ranges(given: Instance) -> Dict[str, Any]:
    return {"turns": [{"coupling": turn.coupling, "side": turn.side} for turn in given.ranges()]}


def _maxcut(given: Instance) -> Dict[str, Any]:
    found = given.maxcut()
    return {"cut": found.weight, "spins": found.spins.tolist(), "loops": _loops(found.loops)}


def _report(given: Instance) -> Dict[str, Any]:
    found = given.report()
    return {
        "bonds": found.bonds,
        "clusters": list(found.clusters),
        "costs": found.costs.tolist(),
        "energy": found.energy,
        "loops": _loops(found.loops),
        "spins": found.spins.tolist(),
        "sum": found.sum,
        "wall": found.wall.as_dict() if found.wall else None,
    }


_STUDIES: Dict[str, Callable[[Instance], Dict[str, Any]]] = {
    "energy": _energy,
    "ground": _ground,
    "wall": _wall,
    "bonds": _bonds,
    "clusters": _clusters,
    "ranges": _ranges,
    "maxcut": _maxcut,
    "report": _report,
}
COMMANDS = (*_STUDIES, "check", "tjoin", "postman")


def _checked(members: Dict[str, Any]) -> Dict[str, Any]:
    """The verdict on a line that has a result beside its instance."""
    energy, spins, loops = (_taken(members, name) for name in ("energy", "spins", "loops"))
    pairs = [(loop["y"], loop["bonds"]) for loop in loops]
    verdict = instance_of(members).check(energy, spins, pairs)
    return {"holds": bool(verdict), "sentence": verdict.sentence}


def _joined(command: str, members: Dict[str, Any]) -> Dict[str, Any]:
    """A T-join or a walk. Without ``n`` the nodes of the edges may have any names."""
    edges = _taken(members, "edges")
    network = Network(members.pop("n"), edges) if "n" in members else Network.from_edges(edges)
    terminals = members.pop("terminals", ()) if command == "tjoin" else ()
    if members:
        raise ValueError(f"a member does not belong here: {next(iter(members))!r}")
    if command == "tjoin":
        return network.tjoin(terminals).as_dict()
    found, labels = network.postman(), network.node_labels()
    steps = [{"edge": step.edge, "node": labels[step.node]} for step in found.steps]
    return {**found.as_dict(), "start": labels[found.start], "steps": steps}


def _taken(members: Dict[str, Any], name: str) -> Any:
    if name not in members:
        raise ValueError(f"there is no member {name}")
    return members.pop(name)


def answer_of(command: str, members: Dict[str, Any]) -> Dict[str, Any]:
    """The answer to one object."""
    if command == "check":
        return _checked(members)
    if command in ("tjoin", "postman"):
        return _joined(command, members)
    return _STUDIES[command](instance_of(members))


def answer_line(task: Tuple[str, int, str]) -> Line:
    """The line that answers a line: a command, the number of the line, and its text.

    >>> answer_line(("wall", 1, '{"id":"a","kind":"cylinder","rows":1,"cols":3,"couplings":[5,7,2]}')).text
    '{"id":"a","periodic":-14,"antiperiodic":-10,"difference":4}'
    """
    command, number, text = task
    answer: Dict[str, Any] = {}
    try:
        members = object_of(text)
        if "id" in members:
            answer["id"] = members.pop("id")
        answer.update(answer_of(command, members))
        status = 0 if answer.get("holds", True) else 3
    except Refusal as refusal:
        answer.update(line=number, refused=refusal.number, name=refusal.name, sentence=refusal.sentence)
        status = 1
    except (TypeError, ValueError, OverflowError, KeyError, NoProofFound) as fault:
        answer.update(line=number, refused=None, name=type(fault).__name__, sentence=str(fault))
        status = 1
    return Line(json.dumps(answer, separators=(",", ":")), status, len(text.encode()))


def answer_lines(command: str, lines: Iterable[str], jobs: int) -> Generator[Line, None, None]:
    """The answers to all lines that are not blank, in their order."""
    tasks = ((command, number, line) for number, line in enumerate(lines, 1) if line.strip())
    yield from map(answer_line, tasks) if jobs == 1 else by_processes(answer_line, tasks, jobs)
