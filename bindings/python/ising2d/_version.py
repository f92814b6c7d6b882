"""The version of the package. Its one home is the file VERSION at the top of the repository; what is
installed has it in its metadata."""

from importlib import metadata
from pathlib import Path


def _version() -> str:
    source = Path(__file__).resolve().parents[1]
    if (source / "pyproject.toml").is_file():
        return (source.parents[1] / "VERSION").read_text(encoding="utf-8").strip()
    return metadata.version("ising2d")


VERSION = _version()
