"""The command line: `python -m ising2d`, installed as `ising2d-py`."""

from __future__ import annotations

import argparse
import os
import signal
import sys
from contextlib import closing
from enum import IntEnum
from pathlib import Path
from typing import Any, BinaryIO, Callable, Dict, Iterator, List, NamedTuple, Optional, Sequence

from ._answers import Run
from ._bundle import write_bundle
from ._draws import checked
from ._errors import NoProofFound, Refusal, RefusalCode, numbers_of, refusal_of, verdict_sentence
from ._explained import explained
from ._instances import Instance
from ._progress import Progress
from ._reading import read, read_proof
from ._records import as_text, proof_in
from ._runs import run
from ._streams import COMMANDS, answer_lines
from ._version import VERSION
from ._workers import WorkerEnded

_NAME = "ising2d"


class Exit(IntEnum):
    """How a run ends, as the program does (docs/FORMATS.md)."""

    ANSWERED = 0
    REFUSED = 1
    USAGE = 2
    PROOF_FAILS = 3
    INPUT_FAILED = 4
    OUTPUT_FAILED = 5
    NO_MEMORY = 6
    INTERRUPTED = 130
    TERMINATED = 143


class OutputFailed(OSError):
    """Standard output is closed, full, or gone."""


class _Study(NamedTuple):
    """A command: what it answers, and an example of its use."""

    answer: str
    example: str


_INSTANCE = "printf 'square,2,2\\n3,4\\n2,-5\\nend\\n' | python3 -m ising2d {0}"
_RING = "printf 'cylinder,1,3\\n5,7,2\\nend\\n' | python3 -m ising2d {0}"

_STUDIES = {
    "energy": _Study("the least energy, and spins that have it", _INSTANCE),
    "ground": _Study("the least energy, spins that have it, and the loops that prove it", _INSTANCE),
    "wall": _Study("what a domain wall at the seam costs", _RING),
    "bonds": _Study("the cost of flipping each bond", _INSTANCE),
    "clusters": _Study("the rigid cluster of each spin", _INSTANCE),
    "report": _Study("energy, loops, costs, clusters and wall at once, as one line of JSON", _RING),
    "ranges": _Study("the coupling of each bond at which the ground states change", _RING),
    "maxcut": _Study("the largest cut with the couplings as weights, and loops that prove it", _INSTANCE),
    "check": _Study(
        "whether the result after an instance is proved",
        "python3 -m ising2d {0} instance.txt answer.txt",
    ),
    "tjoin": _Study(
        "a minimum T-join of the terminals, and cuts that prove it",
        "printf 'graph,2\\nedge,0,1,5\\nterm,0,1\\nend\\n' | python3 -m ising2d {0}",
    ),
    "postman": _Study(
        "a shortest closed walk over every edge, and cuts that prove it",
        "printf 'graph,2\\nedge,0,1,5\\nend\\n' | python3 -m ising2d {0}",
    ),
}

_INSTANCE_FORM = """\
input:
  KIND,ROWS,COLS            square, triangular, hexagonal or cylinder
  COUPLING,COUPLING,..      to the east row by row, then to the south, then the diagonals
  end

  or any planar graph: general,SPINS, records bond,SPIN,SPIN,COUPLING, for each spin a
  record rot,SPIN,DART,.. with its darts in cyclic order (bond k has 2k and 2k + 1), end

  or one object of JSON, as of a line of `lines`
"""
_GRAPH_FORM = """\
input:
  graph,NODES
  edge,NODE,NODE,WEIGHT     for each edge, with nodes from 0 and weights of 0 or more
  term,NODE,NODE,..         for tjoin alone: the terminals
  end
"""
_PROOF_FORM = """\
input: an instance as records, and behind it, or in the next file, an answer of ground
"""
_FORMS = {"tjoin": _GRAPH_FORM, "postman": _GRAPH_FORM, "check": _PROOF_FORM}

_DRAWN = {
    "gen": (
        ("LAW", "SEED", "KIND", "ROWS", "COLS"),
        _Study("a drawn instance", "python3 -m ising2d gen pm 7 square 4 4"),
    ),
    "sample": (
        ("LAW", "SEED", "ROWS", "COLS"),
        _Study("the least energy of a drawn square lattice", "python3 -m ising2d sample pm 7 24 24"),
    ),
    "ensemble": (
        ("LAW", "SEED", "ROWS", "COLS", "COUNT"),
        _Study(
            "the wall energy of each of many drawn cylinders",
            "python3 -m ising2d ensemble pm 1 8 8 10",
        ),
    ),
    "widths": (
        ("LAW", "SEED", "ROWS", "MAXCOLS", "COUNT"),
        _Study(
            "the sums of such ensembles for each number of columns from 3 on",
            "python3 -m ising2d widths pm 1 4 6 10",
        ),
    ),
}

_WORDS = {
    "LAW": "one, alternate, pm or uniform",
    "SEED": "0 to 18446744073709551615",
    "KIND": "square, triangular, hexagonal or cylinder",
    "ROWS": "1 or more, ROWS times COLS (MAXCOLS) at most 2048",
    "COLS": "1 or more; hexagonal 2, cylinder and ensemble 3 or more",
    "MAXCOLS": "3 to 64",
    "COUNT": "1 to 1000",
}

_BUNDLE_WORDS = {
    "LAW": "one, alternate, pm, uniform, gaussian, negative or diluted",
    "ROWS": "1 or more, ROWS times COLS at most 4194304",
}

_LINES = (
    'printf \'{"id":1,"kind":"square","rows":1,"cols":2,"couplings":[5]}\\n\' | '
    "python3 -m ising2d lines energy"
)


def _say(text: str) -> None:
    """Says something on standard error, if there is one that takes it."""
    try:
        print(f"{_NAME}: {text}", file=sys.stderr)
    except (OSError, ValueError, AttributeError):
        pass


def _parser() -> argparse.ArgumentParser:
    parser = argparse.ArgumentParser(
        prog=f"python3 -m {_NAME}",
        formatter_class=argparse.RawDescriptionHelpFormatter,
        description="Exact ground states of planar two-dimensional Ising spin glasses, with proofs.",
        epilog=f"example:\n  {_RING.replace('{0}', 'ground')}\n\nCOMMAND --help describes a command, with an example.",
    )
    parser.add_argument("--version", action="version", version=f"{_NAME} {VERSION}")
    commands = parser.add_subparsers(dest="command", metavar="COMMAND", required=True)
    for name, study in _STUDIES.items():
        _files(_command(commands, name, study, _FORMS.get(name, _INSTANCE_FORM)))
    for name, (words, study) in _DRAWN.items():
        own = _command(commands, name, study)
        for word in words:
            own.add_argument(word, help=_WORDS[word])
    lines = _command(
        commands, "lines", _Study("the answers to many instances, a line of JSON for each", _LINES)
    )
    lines.add_argument("study", choices=COMMANDS, metavar="COMMAND", help=", ".join(COMMANDS))
    lines.add_argument("--jobs", type=_count, default=1, metavar="N", help="so many processes (1)")
    _files(lines)
    picture = _command(
        commands,
        "svg",
        _Study("a picture of a ground state", _INSTANCE.replace("{0}", "svg > picture.svg")),
        _INSTANCE_FORM,
    )
    picture.add_argument("--show", choices=("ground", "clusters", "wall"), default="ground")
    _files(picture)
    _bundle_words(commands)
    _page_words(commands)
    return parser


def _page_words(commands: Any) -> None:
    study = _Study("a page in the browser that shows an instance and its proof", "python3 -m ising2d {0}")
    own = _command(commands, "explore", study, _INSTANCE_FORM)
    own.add_argument("file", nargs="?", metavar="FILE", help="an instance, or a link that the page gave")
    own.add_argument("--port", type=_port, default=8254, metavar="N", help="the port (8254); 0: any free one")
    own.add_argument("--no-browser", action="store_true", help="only print the address")


def _bundle_words(commands: Any) -> None:
    own = _command(
        commands,
        "bundle",
        _Study(
            "a folder of drawn instances with their proved minima and proofs, and a judge of them in Python",
            "python3 -m ising2d bundle folder pm 7 square 4 4 --count 3 && python3 folder/judge.py",
        ),
    )
    own.add_argument("folder", metavar="FOLDER", help="created if it is missing")
    for word in ("LAW", "SEED", "KIND", "ROWS", "COLS"):
        own.add_argument(word, help=_BUNDLE_WORDS.get(word, _WORDS[word]))
    own.add_argument("--count", type=_count, default=10, metavar="N", help="so many instances (10)")
    own.add_argument("--p", type=float, default=None, metavar="P", help="the probability of a law that has one")
    own.add_argument("--nest", action="store_true", help="nests as proofs, also of small instances")


def _command(commands: Any, name: str, study: _Study, form: str = "") -> argparse.ArgumentParser:
    example = study.example.replace("{0}", name)
    own: argparse.ArgumentParser = commands.add_parser(
        name,
        help=study.answer,
        formatter_class=argparse.RawDescriptionHelpFormatter,
        description=study.answer[0].upper() + study.answer[1:] + ".",
        epilog="\n".join([*([form] if form else []), f"example:\n  {example}"]),
    )
    return own


def _files(own: argparse.ArgumentParser) -> None:
    own.add_argument("files", nargs="*", metavar="FILE", help="standard input if no file is named, or for -")
    own.add_argument("--quiet", action="store_true", help="no bar that shows how far it is")


def _count(text: str) -> int:
    if not text.isdecimal() or int(text) < 1:
        raise argparse.ArgumentTypeError(f"{text!r} is not a number of processes (allowed: 1 or more)")
    return int(text)


def _port(text: str) -> int:
    if not (text.isascii() and text.isdecimal()) or int(text) > 65535:
        raise argparse.ArgumentTypeError(f"{text!r} is not a port (allowed: 0 to 65535)")
    return int(text)


def _standard_input() -> BinaryIO:
    """Standard input. One that is closed is a failed one."""
    if sys.stdin is None:
        raise OSError("standard input is closed")
    return sys.stdin.buffer


def _input(name: str) -> bytes:
    if name == "-":
        return _standard_input().read()
    with open(name, "rb") as file:
        return file.read()


def _shown(name: str) -> str:
    return "standard input" if name == "-" else name


def _refused(name: str, refusal: Refusal) -> None:
    """Says why a file is refused."""
    _say(f"{_shown(name)}{': ' if refusal.line is None else ', '}{refusal.sentence}")


def _write(text: str) -> None:
    """Writes to standard output. Raises ``OutputFailed``."""
    if sys.stdout is None:
        raise OutputFailed("standard output is closed")
    try:
        sys.stdout.write(text)
        sys.stdout.flush()
    except (OSError, ValueError) as fault:
        raise OutputFailed(str(fault)) from fault


class _Given(NamedTuple):
    """An input: its name, and its bytes or why there are none."""

    name: str
    bytes: bytes
    fault: Optional[OSError] = None


def _given(command: str, names: Sequence[str]) -> Iterator[_Given]:
    """The input of each file. To ``check`` an instance without its result is one with the next file."""
    waiting = list(names)
    while waiting:
        name = waiting.pop(0)
        try:
            found = _input(name)
            if command == "check" and waiting and _lacks_result(found):
                found += b"\n" + _input(waiting[0])
                name = f"{name} and {waiting.pop(0)}"
            yield _Given(name, found)
        except OSError as fault:
            yield _Given(name, b"", fault)


def _lacks_result(given: bytes) -> bool:
    """Whether the records end where a result is awaited."""
    try:
        proof_in(as_text(given))
    except Refusal as refusal:
        return refusal.number == RefusalCode.UNENDED
    return False


def _study_files(command: str, names: Sequence[str], quiet: bool) -> int:
    """Answers each file as the program does, and says on standard error why one is refused."""
    status, several = 0, len(names) > 1
    progress = Progress(len(names), several and not quiet)
    for given in _given(command, names):
        if given.fault is not None:
            _say(str(given.fault))
            status = max(status, Exit.INPUT_FAILED)
            continue
        found = _study(command, given.bytes)
        progress.step(1)
        if several:
            progress.end()
            _write(f"# {given.name}\n")
        _write(found.text)
        _explain(command, given.name, given.bytes, found)
        status = max(status, found.status)
    progress.end()
    return status


def _study(command: str, given: bytes) -> Run:
    """The answer of the program; of what is larger than it takes, that of the library in the same form."""
    found = run([command], given)
    is_large = found.status == Exit.REFUSED and numbers_of(found.text)[0] in (
        RefusalCode.TOO_MANY_SPINS,
        RefusalCode.TOO_MANY_BONDS,
    )
    if not is_large or command not in (*_LARGE, "check"):
        return found
    try:
        if command == "check":
            verdict = read_proof(given)
            numbers = ",".join(map(str, ("no", verdict.number, *verdict.kept)))
            return Run(Exit.ANSWERED, "yes\n") if verdict else Run(Exit.PROOF_FAILS, numbers + "\n")
        return Run(Exit.ANSWERED, "".join(_LARGE[command](read(given))))
    except Refusal as refusal:
        numbers = ",".join(map(str, ("refused", refusal.number, *refusal.kept)))
        return Run(Exit.REFUSED, numbers + "\n")


def _large_energy(instance: Instance) -> Iterator[str]:
    found = instance.ground(loops=False)
    yield f"energy,{found.energy}\nspins,{','.join(map(str, found.spins.tolist()))}\nend\n"


def _large_ground(instance: Instance) -> Iterator[str]:
    found = instance.ground(loops=True)
    yield f"energy,{found.energy}\nspins,{','.join(map(str, found.spins.tolist()))}\n"
    for loop in found.loops:
        yield f"loop,{loop.weight},{','.join(map(str, loop.bonds))}\n"
    yield "end\n"


def _large_wall(instance: Instance) -> Iterator[str]:
    found = instance.wall()
    yield f"periodic,{found.periodic}\nantiperiodic,{found.antiperiodic}\n"
    yield f"wall,{found.difference}\nend\n"


def _large_bonds(instance: Instance) -> Iterator[str]:
    for k, cost in enumerate(instance.costs().tolist()):
        yield f"cost,{k},{cost},{'rigid' if cost else 'loose'}\n"
    yield "end\n"


def _large_clusters(instance: Instance) -> Iterator[str]:
    for spin, name in enumerate(instance.clusters()):
        yield f"cluster,{spin},{name}\n"
    yield "end\n"


_LARGE: Dict[str, Callable[[Instance], Iterator[str]]] = {
    "energy": _large_energy,
    "ground": _large_ground,
    "wall": _large_wall,
    "bonds": _large_bonds,
    "clusters": _large_clusters,
}


def _explain(command: str, name: str, given: bytes, found: Run) -> None:
    """Says on standard error why a file is refused, or its proof fails."""
    if found.status == Exit.REFUSED:
        large = command in (*_LARGE, "check")
        _refused(name, explained(refusal_of(found.text, None, large), as_text(given), command))
    if found.status == Exit.PROOF_FAILS:
        number, *kept = numbers_of(found.text)
        _say(f"{_shown(name)}: {verdict_sentence(number, kept)}")


def _draw(command: str, words: Sequence[str]) -> int:
    found = run([command, *words])
    _write(found.text)
    if found.status == Exit.REFUSED:
        _say(f"law {words[0]!r}: {refusal_of(found.text).sentence}")
    if found.status == Exit.USAGE:
        _say(_fault_of(command, words))
    return found.status


def _fault_of(command: str, words: Sequence[str]) -> str:
    """The first of the words that is out of its range, and what is allowed."""
    try:
        checked(command, [int(word) if word.isascii() and word.isdigit() else word for word in words])
    except (TypeError, ValueError) as fault:
        return str(fault)
    return "unknown command"


def _lines(options: argparse.Namespace, names: Sequence[str]) -> int:
    status = 0
    for name in names:
        file = _standard_input() if name == "-" else open(name, "rb")
        with file:
            progress = Progress(_size(file), not options.quiet)
            texts = (line.decode("utf-8", "replace") for line in file)
            with closing(answer_lines(options.study, texts, options.jobs)) as answers:
                for line in answers:
                    _write(line.text + "\n")
                    progress.step(line.size)
                    status = max(status, line.status)
            progress.end()
    return status


def _size(file: Any) -> Optional[int]:
    """The size of a plain file; a pipe has none."""
    try:
        return os.fstat(file.fileno()).st_size or None
    except (OSError, ValueError):
        return None


def _picture(show: str, name: str) -> int:
    try:
        instance = read(_input(name))
        shown: Dict[str, Callable[[], str]] = {
            "ground": lambda: instance.ground().svg(),
            "clusters": lambda: instance.clusters().svg(),
            "wall": lambda: instance.wall(states=True).svg(),
        }
        text = shown[show]()
    except Refusal as refusal:
        _refused(name, refusal)
        return Exit.REFUSED
    _write(text + "\n")
    return 0


def _bundle(options: argparse.Namespace) -> int:
    """Writes a bundle, and says what it has."""
    given = [options.LAW, *map(_number_of, (options.SEED, options.KIND, options.ROWS, options.COLS))]
    try:
        count = write_bundle(Path(options.folder), given, options.count, options.p, options.nest)
    except Refusal as refusal:
        _say(refusal.sentence)
        return Exit.REFUSED
    except (TypeError, ValueError) as fault:
        _say(str(fault))
        return Exit.USAGE
    except OSError as fault:
        raise OutputFailed(str(fault)) from fault
    _write(f"{count} instances are in {options.folder}, and judge.py judges them\n")
    return Exit.ANSWERED


def _number_of(word: str) -> Any:
    return int(word) if word.isascii() and word.isdigit() else word


def _answered(options: argparse.Namespace) -> int:
    """The exit status of a command. Sub-commands of the package alone are here, before those of the
    program."""
    if options.command == "bundle":
        return _bundle(options)
    if options.command == "explore":
        from ._explore import explore

        return explore(options.file, options.port, not options.no_browser)
    if options.command in _DRAWN:
        return _draw(options.command, [getattr(options, word) for word in _DRAWN[options.command][0]])
    names: List[str] = options.files or ["-"]
    if options.command == "lines":
        return _lines(options, names)
    if options.command == "svg":
        return max(_picture(options.show, name) for name in names)
    return _study_files(options.command, names, options.quiet)


def _parsed(words: Optional[Sequence[str]]) -> argparse.Namespace:
    """The words, where files may follow options, which argparse alone does not take."""
    parser = _parser()
    options, rest = parser.parse_known_args(words)
    strange = [word for word in rest if word.startswith("-") and word != "-"]
    if strange or (rest and not hasattr(options, "files")):
        parser.error(f"unrecognized arguments: {' '.join(strange or rest)}")
    if rest:
        options.files = options.files + rest
    return options


def _terminated(number: int, frame: object) -> None:
    """SIGTERM ends the process with its status, and nothing is written half."""
    raise SystemExit(Exit.TERMINATED)


def _drop_output() -> None:
    """Nothing more is to be written, also not when the interpreter ends."""
    try:
        os.dup2(os.open(os.devnull, os.O_WRONLY), sys.stdout.fileno())
    except (OSError, ValueError, AttributeError):
        pass


def main(words: Optional[Sequence[str]] = None) -> int:
    """Answers the words, and returns the exit status: that of the program, and 130 for Ctrl-C."""
    options = _parsed(words)
    try:
        signal.signal(signal.SIGTERM, _terminated)
    except ValueError:  # not in the main thread
        pass
    try:
        return int(_answered(options))
    except KeyboardInterrupt:
        return Exit.INTERRUPTED
    except OutputFailed as fault:
        if not isinstance(fault.__cause__, BrokenPipeError):
            _say(str(fault))
        _drop_output()
        return Exit.OUTPUT_FAILED
    except MemoryError:
        _say("no memory left")
        return Exit.NO_MEMORY
    except (NoProofFound, WorkerEnded) as fault:
        _say(str(fault))
        return Exit.NO_MEMORY
    except (OSError, ValueError) as fault:
        _say(str(fault))
        return Exit.INPUT_FAILED
