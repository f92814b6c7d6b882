"""Threads: calls that hear Ctrl-C, and many calls side by side.

The main thread may be left at any step of code in Python, by Ctrl-C or by SIGTERM. `Event`, `Semaphore` and the
start of a `Thread` have such steps, and are left with a lock that is held, or released twice. So what the main
thread waits for here is in C: a plain lock and a `SimpleQueue`, which are left as a whole.
"""

from __future__ import annotations

import _thread
import os
import queue
import threading
from typing import Any, Callable, Dict, Generic, Iterable, Iterator, List, Optional, Tuple, TypeVar

from ._arrays import whole
from ._types import Whole

Item = TypeVar("Item")
Result = TypeVar("Result")

# Up to so many spins a call for one ground state, and for one of each bond, takes no time in which anybody
# would press Ctrl-C.
ONE_STATE, MANY_STATES = 2048, 48

_MOST_THREADS = 1024


def interruptible(long: bool, call: Callable[..., Result], *arguments: Any) -> Result:
    """What the call returns, or raises; ``long`` is whether it may take long.

    Python tells a signal to the main thread alone, and only when no call of the library holds it. So
    a call that may take long is made in a thread of its own, while the main thread waits. An interrupt
    ends the waiting at once; the call goes on to its end, with nobody to take its result, and does not
    hold up the end of the process.
    """
    if not long or threading.get_ident() != threading.main_thread().ident:
        return call(*arguments)
    task = Task(call, arguments)
    task.wait()
    return task.result()


class Task(Generic[Result]):
    """A call in a thread of its own, and what it returned or raised."""

    def __init__(self, call: Callable[..., Result], arguments: Tuple[Any, ...]) -> None:
        self.call, self.arguments = call, arguments
        self.returned: List[Result] = []
        self.raised: List[BaseException] = []
        self.under_way = threading.Lock()
        self.under_way.acquire()
        _thread.start_new_thread(self.work, ())

    def work(self) -> None:
        try:
            self.returned.append(self.call(*self.arguments))
        except BaseException as fault:  # whatever it is, it is raised again where it is waited for
            self.raised.append(fault)
        finally:
            self.under_way.release()

    def wait(self, seconds: float = -1) -> bool:
        """Waits until the call has ended, or for so many seconds; whether it has."""
        ended = self.under_way.acquire(timeout=seconds)
        if ended:
            self.under_way.release()
        return ended

    def result(self) -> Result:
        if self.raised:
            raise self.raised[0]
        return self.returned[0]


def in_order(
    call: Callable[[Item], Result], items: Iterable[Item], threads: Optional[Whole] = None
) -> Iterator[Result]:
    """What the call returns for each item, in the order of the items, by as many threads as there are
    processors or as are asked for. The first that raises ends it, with what it raised. Items are taken
    as they are needed, so there may be no end of them.

    >>> list(in_order(abs, [-1, 2, -3], threads=2))
    [1, 2, 3]
    """
    count = thread_count(threads)
    crew: _Crew[Item, Result] = _Crew(call, items, count)
    try:
        yield from crew.results()
    finally:
        crew.stop()


def thread_count(threads: Optional[Whole]) -> int:
    """As many as are asked for, or as many as there are processors."""
    if threads is None:
        # Fewer than the machine has, if a queue gave this process a part of them.
        return len(os.sched_getaffinity(0)) if hasattr(os, "sched_getaffinity") else os.cpu_count() or 1
    number = whole(threads, "threads")
    if not 1 <= number <= _MOST_THREADS:
        raise ValueError(f"threads is {number} (allowed: 1 to {_MOST_THREADS})")
    return number


class _Crew(Generic[Item, Result]):
    """Threads that take items from one source."""

    def __init__(self, call: Callable[[Item], Result], items: Iterable[Item], count: int) -> None:
        self.call, self.source = call, enumerate(items)
        self.taking = threading.Lock()
        # An entry for each item that may be taken before an earlier one is answered.
        self.ahead: queue.SimpleQueue[None] = queue.SimpleQueue()
        for _ in range(4 * count):
            self.ahead.put(None)
        self.stopped = False
        self.finished: queue.SimpleQueue[Tuple[int, bool, Any]] = queue.SimpleQueue()
        self.working = count
        for _ in range(count):
            _thread.start_new_thread(self._work, ())

    def _work(self) -> None:
        """Takes items until there are none; at last it says so, by a place below 0."""
        try:
            while self._one():
                pass
        except BaseException as fault:  # the source itself failed
            self.finished.put((-1, False, fault))
        else:
            self.finished.put((-1, True, None))

    def _one(self) -> bool:
        self.ahead.get()
        with self.taking:
            taken = None if self.stopped else next(self.source, None)
        if taken is None:
            self.ahead.put(None)
            return False
        place, item = taken
        try:
            self.finished.put((place, True, self.call(item)))
        except BaseException as fault:  # it is raised again where its result is asked for
            self.finished.put((place, False, fault))
        return True

    def results(self) -> Iterator[Result]:
        early: Dict[int, Tuple[bool, Any]] = {}
        awaited = 0
        while self.working or early:
            if awaited in early:
                good, value = early.pop(awaited)
                if not good:
                    raise value
                awaited += 1
                self.ahead.put(None)
                yield value
                continue
            place, good, value = self.finished.get()
            if place >= 0:
                early[place] = good, value
            elif good:
                self.working -= 1
            else:
                raise value

    def stop(self) -> None:
        """No item is taken from now on. Calls that are under way go on to their ends."""
        self.stopped = True
        for _ in range(self.working):
            self.ahead.put(None)
