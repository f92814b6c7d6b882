"""What runs of the program and calls of the library take: one stop-watch for all parts of tools/measure and
tools/attack."""
import ctypes
import os
import pathlib
import resource
import signal
import statistics
import subprocess
import sys
import tempfile
import time

TOP = pathlib.Path(__file__).resolve().parents[2]
PROGRAM = TOP / "built" / "ising2d"
LIBRARY = TOP / "built" / "libising2d.so"


def environment():
    """That of a child which calls the built library from Python."""
    return {**os.environ, "PYTHONPATH": str(TOP / "bindings" / "python"), "ISING2D_LIBRARY": str(LIBRARY)}


def package():
    """The Python package of this checkout, over its built library."""
    sys.path.insert(0, str(TOP / "bindings" / "python"))
    os.environ["ISING2D_LIBRARY"] = str(LIBRARY)
    import ising2d
    return ising2d


class Ran:
    """How a run ended: its status, None where its time was up, what it wrote on both outputs, its processor
    seconds, and its peak memory in bytes, which is at least that of this process."""

    def __init__(self, status, out, err, used):
        self.status, self.out, self.err = status, out, err
        self.seconds, self.peak = used.ru_utime + used.ru_stime, used.ru_maxrss * 1024


def limits(space, within):
    """Sets them in a child that is about to start; none where there are none."""
    def set_limits():
        if space is not None:
            resource.setrlimit(resource.RLIMIT_AS, (space, space))
        if within is not None:
            resource.setrlimit(resource.RLIMIT_CPU, (within, within + 1))
    return None if space is None and within is None else set_limits


def run(words, given="", env=None, space=None, within=None):
    """A run on a text, or on an open file, with these bytes of address space and CPU seconds at most."""
    if isinstance(given, str):
        with tempfile.TemporaryFile() as source:
            source.write(given.encode())
            return run(words, source, env, space, within)
    given.seek(0)
    with tempfile.TemporaryFile() as out, tempfile.TemporaryFile() as err:
        child = subprocess.Popen(list(map(str, words)), stdin=given, stdout=out, stderr=err, close_fds=False,
                                 env={**os.environ, **(env or {})}, preexec_fn=limits(space, within))
        _, status, used = os.wait4(child.pid, 0)
        child.returncode = os.waitstatus_to_exitcode(status)
        written = []
        for file in (out, err):
            file.seek(0)
            written.append(file.read().decode(errors="replace"))
    is_over = within is not None and child.returncode in (-signal.SIGXCPU, -signal.SIGKILL)
    return Ran(None if is_over else child.returncode, *written, used)


def quickest(runs, make):
    """A run with the least time of some. One that takes two seconds is not made again."""
    least = make()
    for _ in range(runs - 1):
        if least.status == 0 and least.seconds < 2:
            least.seconds = min(least.seconds, make().seconds)
    return least


def timed(call):
    """What a call returns, and the CPU seconds of this process that it took."""
    begun = time.process_time()
    found = call()
    return found, time.process_time() - begun


def medians(calls, least=3, long_enough=3.0):
    """The median seconds of each call. They are made by turns, so that all have the same other work beside them,
    so often at least, and for so many seconds of CPU time."""
    taken, begun = [[] for _ in calls], time.process_time()
    while len(taken[0]) < least or time.process_time() - begun < long_enough:
        for own, call in zip(taken, calls):
            own.append(timed(call)[1])
    return [statistics.median(own) for own in taken]


def peak():
    """The most memory that this process has had, in bytes."""
    return 1024 * resource.getrusage(resource.RUSAGE_SELF).ru_maxrss


def status_bytes(name):
    """A number of bytes that Linux has of this process: VmHWM, its peak, or VmRSS, what it has now."""
    lines = pathlib.Path("/proc/self/status").read_text().splitlines()
    return next(1024 * int(line.split()[1]) for line in lines if line.startswith(name))


def begin_peak():
    """Sets the peak of this process (VmHWM) to what it has now, without what the C library keeps for later, and gives
    that, in bytes."""
    ctypes.CDLL(None).malloc_trim(0)
    pathlib.Path("/proc/self/clear_refs").write_text("5")
    return status_bytes("VmRSS")


def asked(file, *words):
    """The numbers that a program of this folder prints of a measurement, made in a process of its own."""
    told = subprocess.run([sys.executable, str(file), *map(str, words)], check=True, stdout=subprocess.PIPE, text=True)
    return [float(word) for word in told.stdout.split()]


def run_here(file, *words):
    """The exit status of a program of this folder, which prints by itself."""
    return subprocess.call([sys.executable, str(file), *map(str, words)])
