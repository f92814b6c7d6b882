"""Long studies: their progress, and their results so far when they are stopped."""

from __future__ import annotations

import time
from typing import Any, Callable, Generic, Optional, TypeVar, Union

from ._arrays import shortened
from ._progress import Progress
from ._threads import Task

Found = TypeVar("Found")
Result = TypeVar("Result")

# How progress is shown: by a function of what is done and of the whole, which stops the study if it returns
# False; by a bar if standard error is a terminal (True or None); or not at all (False).
Telling = Union[Callable[[int, int], object], bool, None]

# A bar is shown of what takes longer than so many seconds.
_PATIENCE = 1.0
# How often progress is shown while the library works, in seconds.
_TICK = 0.25


def refuse_progress(progress: object) -> None:
    """Raises ``TypeError`` if this cannot show progress."""
    if not (progress is None or isinstance(progress, bool) or callable(progress)):
        raise TypeError(f"progress: expected a function of two numbers, True or False, not {shortened(progress)}")


class Stopped(KeyboardInterrupt):
    """A long study was stopped by Ctrl-C, or by its ``progress``. ``found`` is the result so far, with which
    the study can be continued: a ``CostBounds`` for ``costs``, an ``Ensemble`` for ``ensemble``, and None
    for ``clusters``, which is one call of the library.

        try:
            costs = lattice.costs()
        except ising2d.Stopped as stopped:
            pickle.dump(stopped.found, open("bounds", "wb"))
        ...
        costs = lattice.costs(bounds=pickle.load(open("bounds", "rb")))

    >>> import ising2d
    >>> lattice = ising2d.draw("pm", 1, "square", 6, 6)
    >>> try:
    ...     lattice.costs(progress=lambda done, whole: False)
    ... except ising2d.Stopped as stopped:
    ...     found = stopped.found
    >>> lattice.costs(bounds=found).tolist() == lattice.costs().tolist()
    True
    """

    def __init__(self, found: object, done: int, whole: int) -> None:
        super().__init__(f"stopped when {done} of {whole} were done")
        self.found, self.done, self.whole = found, done, whole


class Watch(Generic[Found]):
    """Shows the progress of a study, and stops it: within ``with``, an interrupt becomes ``Stopped`` with
    what ``found`` returns."""

    def __init__(self, progress: Telling, whole: int, found: Callable[[], Found]) -> None:
        self._call = progress if callable(progress) else None
        self._bar = Progress(whole, wanted=progress is None or progress is True)
        self._whole, self._found, self.done = whole, found, 0
        self._begun = time.monotonic()

    def step(self, count: int) -> None:
        """So many more are done."""
        self.done += count
        if time.monotonic() - self._begun > _PATIENCE:
            self._bar.step(count, count)
        else:
            self._bar.add(count, count)
        if self._call is not None and self._call(self.done, self._whole) is False:
            raise KeyboardInterrupt

    def wait(self, what: str) -> None:
        """Nothing more is done."""
        seconds = time.monotonic() - self._begun
        if seconds > _PATIENCE:
            self._bar.say(f"{what}: {seconds:.0f} s")
        if self._call is not None and self._call(self.done, self._whole) is False:
            raise KeyboardInterrupt

    def __enter__(self) -> Watch[Found]:
        return self

    def __exit__(self, kind: Optional[type], fault: Optional[BaseException], trace: object) -> None:
        self._bar.end()
        if isinstance(fault, KeyboardInterrupt) and not isinstance(fault, Stopped):
            raise Stopped(self._found(), self.done, self._whole) from None


def awaited(progress: Telling, what: str, call: Callable[..., Result], *arguments: Any) -> Result:
    """What one long call of the library returns, or raises. Meanwhile ``progress`` is called with 0 of 1, or
    a bar shows the seconds. If it is stopped, nothing of the call is kept."""
    refuse_progress(progress)
    with Watch(progress, 1, lambda: None) as watch:
        task: Task[Result] = Task(call, arguments)
        while not task.wait(_TICK):
            watch.wait(what)
        found = task.result()
        watch.step(1)
        return found
