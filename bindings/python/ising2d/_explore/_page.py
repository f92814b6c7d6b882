"""The page as one text, and the policy under which a browser runs it."""

import base64
import hashlib
from pathlib import Path
from typing import NamedTuple

_HERE = Path(__file__).resolve().parent
_SCRIPTS = ("layout", "world", "pens", "scene", "server", "panels", "app", "showing", "main")


class Page(NamedTuple):
    """The text of the page, and its content security policy: the page's own script and style by their
    hashes, requests to the same origin, and nothing else."""

    text: bytes
    policy: str


def _read(name: str) -> str:
    return (_HERE / name).read_text(encoding="utf-8")


def _hash(text: str) -> str:
    digest = hashlib.sha256(text.encode("utf-8")).digest()
    return f"'sha256-{base64.b64encode(digest).decode('ascii')}'"


def page() -> Page:
    """The page, put together from its parts.

    >>> text, policy = page()
    >>> text[:15], "unsafe" in policy
    (b'<!DOCTYPE html>', False)
    """
    style, script = _read("page.css"), "\n".join(_read(f"{name}.js") for name in _SCRIPTS)
    text = _read("page.html").replace("/* style */", style).replace("/* script */", script)
    policy = "; ".join(
        [
            "default-src 'none'",
            f"script-src {_hash(script)}",
            f"style-src {_hash(style)}",
            "connect-src 'self'",
            "img-src data:",
            "base-uri 'none'",
            "form-action 'none'",
            "frame-ancestors 'none'",
            "require-trusted-types-for 'script'",
        ]
    )
    return Page(text.encode("utf-8"), policy)
