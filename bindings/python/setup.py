"""What pyproject.toml cannot say: the version is that of the repository, the wheel carries the shared library
that bindings/build made, and its tag names the oldest glibc on which this library runs."""

import platform
import re
import shutil
from pathlib import Path

from setuptools import Distribution, setup
from setuptools.command.build_py import build_py
from wheel.bdist_wheel import bdist_wheel

HERE = Path(__file__).resolve().parent
TOP = HERE.parents[1]
LIBRARY = TOP / "built" / "libising2d.so"


def version():
    """The version of the repository."""
    return (TOP / "VERSION").read_text(encoding="utf-8").strip()


def oldest_glibc(data):
    """The newest version of glibc that a binary names: it runs on this and on all later ones."""
    named = [(int(a), int(b)) for a, b in re.findall(rb"GLIBC_(\d+)\.(\d+)", data)]
    # Packed relocations, which some linkers make, have a name of their own.
    return max([(2, 36)] * (b"GLIBC_ABI_DT_RELR" in data) + named, default=(2, 5))


class WithLibrary(build_py):
    """Puts the shared library into the package that is built, and none into the sources."""

    def run(self):
        if not LIBRARY.exists():
            raise SystemExit(
                f"ising2d: {LIBRARY} is not there, and the package is nothing without it. "
                "Make it with bindings/build, and install again."
            )
        super().run()
        if not self.editable_mode:
            shutil.copyfile(LIBRARY, Path(self.build_lib) / "ising2d" / LIBRARY.name)


class Binary(Distribution):
    """A package that is not of Python alone."""

    def has_ext_modules(self):
        return True


class Tagged(bdist_wheel):
    """A wheel for each Python 3 on this machine's kind with this glibc or a later one."""

    def get_tag(self):
        # pip knows no tag below glibc 2.5.
        major, minor = max(oldest_glibc(LIBRARY.read_bytes()), (2, 5))
        return "py3", "none", f"manylinux_{major}_{minor}_{platform.machine()}"


setup(version=version(), distclass=Binary, cmdclass={"build_py": WithLibrary, "bdist_wheel": Tagged})
