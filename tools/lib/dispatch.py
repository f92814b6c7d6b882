"""One command with parts, each of which is a program of this folder with words of its own."""
import pathlib
import re
import subprocess
import sys

HERE = pathlib.Path(__file__).resolve().parent


def words_of(file):
    """How a file of this folder is run."""
    path = HERE / file
    return [sys.executable, str(path)] if path.suffix == ".py" else [str(path)]


def run_part(file, words):
    """Runs a part in this process's place as far as callers see, and gives its exit status."""
    try:
        return subprocess.run([*words_of(file), *words]).returncode
    except KeyboardInterrupt:
        return 130


def test_all(tests):
    """Runs tests, each a file with its words, and prints what their last lines count together. A test that ends
    badly, or that counts nothing, has failed at least once."""
    passed = failed = 0
    for file, words in tests:
        ran = subprocess.run([*words_of(file), *words], stdout=subprocess.PIPE, stderr=subprocess.STDOUT, text=True)
        lines = ran.stdout.splitlines()
        counted = re.fullmatch(r"(\d+) passed, (\d+) failed", lines[-1] if lines else "")
        for line in lines[: -1 if counted else None]:
            print(line, flush=True)
        more, less = (int(counted[1]), int(counted[2])) if counted else (0, 1)
        passed += more
        failed += less or int(ran.returncode != 0)
    print(f"{passed} passed, {failed} failed")
    return 1 if failed else 0
