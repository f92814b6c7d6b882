"""The prover of the toolchain, called as rt calls it. It writes a library, a program or an archive of a crate only if
the crate is proved.

A library of statements alone is read in a second, one with proofs in up to a minute. But only beside libraries with
proofs does the prover keep what it has checked, so that a change costs no whole proof. `rt lib` makes the second kind,
and `rt ci` the first.
"""
import contextlib
import fcntl
import hashlib
import os
import pathlib
import signal
import subprocess
import typing

TOP = pathlib.Path(__file__).resolve().parents[2]
# What a crate is proved from.
SOURCES = ("src", "specs", "proofs")
# Where the prover keeps what it checked, for itself and for rt.
CHECKED = "out/incremental"
PROGRAM, ARCHIVE = "out/{}", "out/lib{}.a"


class Crate(typing.NamedTuple):
    """A line of crates.txt."""

    name: str
    is_static: bool
    # The crates that it uses, and the libraries of the toolchain.
    uses: list
    of_kit: list

    @property
    def folder(self):
        return TOP / "crates" / self.name

    @property
    def is_program(self):
        return (self.folder / "src" / "main.rt").exists()


def listed():
    """The crates of crates.txt, by their names."""
    rows = {}
    for line in (TOP / "crates.txt").read_text(encoding="utf-8").splitlines():
        head, _, tail = line.partition("#")[0].partition(":")
        if head.strip():
            name, *kind = head.split()
            rows[name] = kind, tail.split()
    return {
        name: Crate(name, "staticlib" in kind, [it for it in used if it in rows], [it for it in used if it not in rows])
        for name, (kind, used) in rows.items()
    }


def needed(name, crates):
    """The names of the crate and of all below it, each behind those that it uses."""
    found = []

    def visit(crate):
        if crate not in found:
            for below in crates[crate].uses:
                visit(below)
            found.append(crate)

    visit(name)
    return found


class Prover:
    """The prover, and where the library of a crate lies."""

    def __init__(self, library, keeps=False, processor="x86-64"):
        """`library` gives the folder that has the library NAME.rlib of the crate NAME; `keeps` tells whether what is
        checked is kept. Archives are for a level of processors, by default for all: they go into wheels, whose tags
        name none."""
        self.kit = pathlib.Path(subprocess.run(["rt", "doc"], capture_output=True, text=True, check=True).stdout.strip()).parent
        self.library, self.keeps, self.processor = library, keeps, processor
        self.crates = listed()
        self.sums, self.at_work = {}, set()

    def rlib(self, name):
        return self.library(name) / f"{name}.rlib"

    def sum(self, name):
        """A checksum of all that the library of a crate is made from."""
        if name not in self.sums:
            crate = self.crates[name]
            found = hashlib.sha256((self.kit / "WHAT").read_bytes() + repr(crate).encode())
            for file in sorted(it for part in SOURCES for it in (crate.folder / part).rglob("*") if it.is_file()):
                found.update(f"{file.relative_to(crate.folder)} {hashlib.sha256(file.read_bytes()).hexdigest()}\n".encode())
            for below in crate.uses:
                found.update(self.sum(below).encode())
            self.sums[name] = found.hexdigest()
        return self.sums[name]

    def is_made(self, name):
        """Whether the library of a crate is made from its sources as they are."""
        note = self.library(name) / f"{name}.sum"
        return self.rlib(name).is_dir() and note.exists() and note.read_text() == self.sum(name)

    def words(self, crate, jobs):
        """What the prover is called with to check a crate."""
        words = ["--crate-name", crate.name, "src/main.rt" if crate.is_program else "src/lib.rt"]
        for name in ("std", *crate.of_kit):
            words += ["--extern", f"{name}={self.kit}/rlibs/{name}.rlib"]
        for name in crate.uses:
            words += ["--extern", f"{name}={self.rlib(name)}"]
        below = [self.library(name) for name in needed(crate.name, self.crates)[:-1]]
        for folder in dict.fromkeys([self.kit / "rlibs", *below]):
            words += ["-L", f"dependency={folder}"]
        words += ["--links", f"{crate.name}=", "--antt-project", f"{self.kit}/rattle/logic/antt-project.json"]
        words += ["--logic-built", f"{self.kit}/logic_built", "--jobs", str(jobs)]
        return [*words, *(["--incremental", CHECKED] if self.keeps else [])]

    def make(self, name, jobs):
        """Proves a crate and makes its library, program or archive. Gives the status and what the prover said."""
        crate = self.crates[name]
        words = ["build", *self.words(crate, jobs)]
        compiled = ["--toolchain", f"{self.kit}/toolchain", "--backend", "llvm"]
        (crate.folder / "out").mkdir(exist_ok=True)
        with alone_in(crate.folder):
            if crate.is_program:
                return self.link(crate, *self.call(crate, [*words, *compiled, "-o", f"{PROGRAM.format(name)}.o"]))
            if crate.is_static:
                kind = ["--crate-type", "staticlib", "--cpu", self.processor]
                return self.call(crate, [*words, *compiled, *kind, "-o", ARCHIVE.format(name)])
            return self.make_library(crate, words)

    def make_library(self, crate, words):
        folder, sum = self.library(crate.name), self.sum(crate.name)
        folder.mkdir(parents=True, exist_ok=True)
        note = folder / f"{crate.name}.sum"
        note.unlink(missing_ok=True)
        words = [*words, *([] if self.keeps else ["--statements"])]
        status, said = self.call(crate, [*words, "-o", str(self.rlib(crate.name))])
        if status == 0:
            note.write_text(sum)
        return status, said

    def link(self, crate, status, said):
        """Links the program that is compiled, if it is."""
        if status != 0:
            return status, said
        program = PROGRAM.format(crate.name)
        words = [self.kit / "bin" / "rattle-link", "--target", "x86_64-unknown-linux-gnu", "--toolchain", self.kit / "toolchain"]
        words += ["-o", program, f"{program}.o", self.kit / "c" / "libos_c.a", self.kit / "c" / "liblibc_c.a"]
        ran = subprocess.run(words, cwd=crate.folder, stdin=subprocess.DEVNULL, stdout=subprocess.PIPE, stderr=subprocess.STDOUT, text=True)
        return ran.returncode, said + ran.stdout

    def call(self, crate, words):
        """Calls the prover. One that was killed, most likely for memory, is called again with one job."""
        how = {"stdin": subprocess.DEVNULL, "stdout": subprocess.PIPE, "stderr": subprocess.STDOUT, "start_new_session": True}
        with subprocess.Popen([self.kit / "bin" / "rattle", *words], cwd=crate.folder, text=True, errors="replace", **how) as ran:
            self.at_work.add(ran)
            said = ran.communicate()[0]
            self.at_work.discard(ran)
        at = words.index("--jobs") + 1
        if ran.returncode == -signal.SIGKILL and words[at] != "1":
            return self.call(crate, [*words[:at], "1", *words[at + 1 :]])
        return ran.returncode, said

    def stop(self):
        """Ends all that runs, with the copies of the prover that it has made."""
        for ran in list(self.at_work):
            os.killpg(ran.pid, signal.SIGTERM)


@contextlib.contextmanager
def alone_in(folder):
    """No rt works in the folder of a crate meanwhile: rt locks it in the same way."""
    held = os.open(folder, os.O_RDONLY)
    try:
        # Some file systems have no locks.
        with contextlib.suppress(OSError):
            fcntl.flock(held, fcntl.LOCK_EX)
        yield
    finally:
        os.close(held)
