"""The page of `ising2d-py explore`: an instance, its ground state and its proof, to look at and to touch.

``_server`` serves one page and its requests on this machine alone, ``_requests`` answers a request by the
calls of the package, and ``_page`` puts the page together from ``page.html``, ``page.css`` and the scripts
beside it.
"""

from ._server import explore

__all__ = ["explore"]
