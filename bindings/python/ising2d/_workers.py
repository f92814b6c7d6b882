"""Processes that call one function for many items."""

from __future__ import annotations

import multiprocessing
import selectors
import signal
from multiprocessing import resource_tracker
from multiprocessing.connection import Connection
from multiprocessing.process import BaseProcess
from typing import Any, Callable, Dict, Generator, Generic, Iterable, Iterator, List, NoReturn, Optional, TypeVar

Item = TypeVar("Item")
Result = TypeVar("Result")

# So many results for each process may wait for an earlier one.
_AHEAD = 8
# What ends a run from outside.
_ENDS = {signal.SIGINT, signal.SIGTERM}


class WorkerEnded(RuntimeError):
    """A process has ended before its result."""


def by_processes(
    call: Callable[[Item], Result], items: Iterable[Item], count: int
) -> Generator[Result, None, None]:
    """What the call returns for each item, in the order of the items, by so many processes. The first that raises
    ends it, with what it raised. A process that is killed raises `WorkerEnded`; if SIGTERM killed it, this process
    gets SIGTERM too. Close it for the processes to end at once."""
    workers = _Workers(call, count)
    try:
        workers.start()
        for item in items:
            workers.take(0)
            yield from workers.in_turn()
            while not workers.idle or workers.given - workers.told >= _AHEAD * count:
                workers.take(None)
                yield from workers.in_turn()
            workers.give(item)
        while workers.places:
            workers.take(None)
            yield from workers.in_turn()
    finally:
        workers.stop()


def _serve(call: Callable[[Item], Result], pipe: Connection) -> None:
    """Calls the function for what comes through a pipe. Ctrl-C is for the process that hands out the items; SIGTERM
    ends this one without a word."""
    signal.signal(signal.SIGINT, signal.SIG_IGN)
    signal.signal(signal.SIGTERM, signal.SIG_DFL)
    signal.pthread_sigmask(signal.SIG_UNBLOCK, _ENDS)
    try:
        while True:
            pipe.send(_outcome(call, pipe.recv()))
    except (EOFError, OSError):
        pass  # nobody awaits a result


def _outcome(call: Callable[[Item], Result], item: Item) -> object:
    try:
        return call(item)
    except Exception as fault:  # it is raised again where the result is awaited
        return fault


class _Workers(Generic[Item, Result]):
    """Processes that are each at one item at a time, and the results that wait for earlier ones.

    Only one thread speaks with them, and it holds no lock. `multiprocessing.Pool` has threads of its own, whose
    locks a signal may leave half-way (see `_threads`); and it waits for ever for a process that was killed.
    """

    def __init__(self, call: Callable[[Item], Result], count: int) -> None:
        self.call, self.count = call, count
        self.processes: Dict[Connection, BaseProcess] = {}
        self.selector = selectors.DefaultSelector()
        self.idle: List[Connection] = []
        # The places of the items that are under way, and of results that wait.
        self.places: Dict[Connection, int] = {}
        self.early: Dict[int, Result] = {}
        self.given = self.told = 0

    def start(self) -> None:
        # No signal comes before a process has its entry here, nor before it says what to do about one. The tracker,
        # which the first start would begin, lets signals through.
        resource_tracker.ensure_running()
        before = signal.pthread_sigmask(signal.SIG_BLOCK, _ENDS)
        try:
            for _ in range(self.count):
                self._start_one()
        finally:
            signal.pthread_sigmask(signal.SIG_SETMASK, before)

    def _start_one(self) -> None:
        # A process of its own and no fork, since a process with threads is not to be forked.
        context = multiprocessing.get_context("spawn")
        ours, theirs = context.Pipe()
        process = context.Process(target=_serve, args=(self.call, theirs), daemon=True)
        process.start()
        theirs.close()
        self.processes[ours] = process
        self.selector.register(ours, selectors.EVENT_READ, ours)
        self.idle.append(ours)

    def give(self, item: Item) -> None:
        """Hands an item to an idle process."""
        pipe = self.idle.pop()
        self.places[pipe] = self.given
        self.given += 1
        try:
            pipe.send(item)
        except OSError:
            self._ended(pipe)

    def take(self, seconds: Optional[float]) -> None:
        """Takes the results that come within so many seconds, or waits for one."""
        for key, _ in self.selector.select(seconds):
            pipe: Connection = key.data
            result = self._result(pipe)
            self.early[self.places.pop(pipe)] = result
            self.idle.append(pipe)

    def _result(self, pipe: Connection) -> Result:
        try:
            found: Any = pipe.recv()
        except (EOFError, OSError):
            self._ended(pipe)
        if isinstance(found, Exception):
            raise found
        result: Result = found
        return result

    def _ended(self, pipe: Connection) -> NoReturn:
        """Who ends one process by SIGTERM, ends all."""
        process = self.processes[pipe]
        process.join()
        if process.exitcode == -signal.SIGTERM:
            signal.raise_signal(signal.SIGTERM)
        raise WorkerEnded("a process ended before its answer, perhaps as no memory was left")

    def in_turn(self) -> Iterator[Result]:
        """The results that are there, up to the first that is not."""
        while self.told in self.early:
            yield self.early.pop(self.told)
            self.told += 1

    def stop(self) -> None:
        """Ends the processes, whatever they are at."""
        self.selector.close()
        for process in self.processes.values():
            process.terminate()
        for pipe, process in self.processes.items():
            process.join()
            pipe.close()
