"""Installing by setuptools: wheels, an editable install, and one that comes before the library is made. No
network. It is left out where the Python that runs it has no setuptools, wheel or venv."""

import importlib.util
import os
import re
import shutil
import subprocess
import sys
import tempfile
import unittest
import zipfile
from pathlib import Path

import ising2d

SOURCE = Path(__file__).resolve().parents[1] / "python"
LIBRARY = Path(ising2d._ffi.library()._name)
IS_READY = all(importlib.util.find_spec(name) for name in ("setuptools", "wheel", "venv"))


@unittest.skipUnless(IS_READY, "setuptools or wheel is not there")
class Packages(unittest.TestCase):
    @classmethod
    def setUpClass(cls):
        cls.room = Path(tempfile.mkdtemp())
        cls.addClassCleanup(shutil.rmtree, cls.room, ignore_errors=True)
        cls.source = cls.room / "clone" / "bindings" / "python"
        shutil.copytree(SOURCE, cls.source, ignore=shutil.ignore_patterns("__pycache__", "build", "*.egg-info"))
        shutil.copy(SOURCE.parents[1] / "VERSION", cls.source.parents[1])
        words = [sys.executable, "-m", "venv", "--system-site-packages", str(cls.room / "venv")]
        made = subprocess.run(words, capture_output=True, text=True)
        cls.python = cls.room / "venv" / "bin" / "python"
        if made.returncode != 0:
            raise unittest.SkipTest("there is no venv")

    def setUp(self):
        built = self.source.parents[1] / "built"
        built.mkdir(exist_ok=True)
        shutil.copy(LIBRARY, built / "libising2d.so")

    def run_there(self, *words):
        bare = {
            name: value for name, value in os.environ.items() if name not in ("PYTHONPATH", "ISING2D_LIBRARY")
        }
        return subprocess.run(
            [str(self.python), *words], capture_output=True, text=True, cwd=self.room, env=bare
        )

    def pip(self, *words):
        return self.run_there(
            "-m", "pip", *words[:1], "--no-build-isolation", "--no-deps", "--no-index", "--disable-pip-version-check", *words[1:]
        )

    def install(self, *words):
        return self.pip("install", "--force-reinstall", *words)

    def works(self):
        found = self.run_there(
            "-c",
            "import ising2d; print(ising2d.ground('square', 2, 2, [3, 4, 2, -5]).energy, ising2d.__file__)",
        )
        self.assertEqual((found.stdout.split()[:1], found.stderr), (["-10"], ""))
        version = subprocess.run(
            [str(self.python.with_name("ising2d-py")), "--version"], capture_output=True, text=True
        )
        self.assertEqual(version.stdout, f"ising2d {ising2d.__version__}\n")
        return found.stdout.split()[1]

    def test_before_the_library_is_made(self):
        (self.source.parents[1] / "built" / "libising2d.so").unlink()
        found = self.install(str(self.source))
        self.assertNotEqual(found.returncode, 0)
        self.assertIn("Make it with bindings/build, and install again", found.stdout + found.stderr)

    def test_editable(self):
        found = self.install("-e", str(self.source))
        self.assertEqual(found.returncode, 0, found.stderr)
        self.assertEqual(Path(self.works()).parents[1], self.source.resolve())

    def asked_of_the_system(self):
        """The glibc versions and the libraries that the library needs, by readelf."""
        if shutil.which("readelf") is None:
            return set(), set()
        told = subprocess.run(["readelf", "-dV", str(LIBRARY)], capture_output=True, text=True).stdout
        versions = {(int(a), int(b)) for a, b in re.findall(r"Name: GLIBC_(\d+)\.(\d+)", told)}
        return versions, set(re.findall(r"\(NEEDED\).*\[(.*)\]", told))

    def test_a_wheel_with_its_tag(self):
        made = self.pip("wheel", "--wheel-dir", str(self.room / "made"), str(self.source))
        self.assertEqual(made.returncode, 0, made.stderr)
        (wheel,) = (self.room / "made").glob("*.whl")
        self.assertRegex(wheel.name, r"^ising2d-[0-9.]+-py3-none-manylinux_2_[0-9]+_\w+\.whl$")
        with zipfile.ZipFile(wheel) as archive:
            names = set(archive.namelist())
            self.assertLessEqual(
                {f"ising2d/{name}" for name in ("libising2d.so", "texts.csv", "judge.py", "py.typed")}, names
            )
            metadata = archive.read(next(name for name in names if name.endswith("METADATA"))).decode()
        for part in ("Summary: Exact", "Classifier: Typing", "Requires-Python: >=3.9", "# ising2d"):
            self.assertIn(part, metadata)
        versions, needed = self.asked_of_the_system()
        if versions:
            major, minor = max(max(versions), (2, 5))
            self.assertIn(f"manylinux_{major}_{minor}_", wheel.name)
            self.assertLessEqual(needed, {"libc.so.6", "libm.so.6", "libgcc_s.so.1", "ld-linux-x86-64.so.2"})
        self.assertEqual(self.install(str(wheel)).returncode, 0)
        self.assertIn("site-packages", self.works())


if __name__ == "__main__":
    unittest.main()
