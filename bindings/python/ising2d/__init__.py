"""Exact ground states of planar two-dimensional Ising spin glasses, each with a proof.

    >>> import random, ising2d
    >>> source = random.Random(1)
    >>> gaussian = [source.gauss(0, 1) for _ in range(2 * 8 * 7)]
    >>> found = ising2d.Lattice.from_real("square", 8, 8, gaussian).ground()
    >>> round(found.real.energy, 4), found.real.error < 1e-9, bool(found.check())
    (-71.2045, True, True)

A lattice is a kind ("square", "triangular", "hexagonal" or "cylinder"), its rows and columns, and
its couplings, one for each bond: first all bonds to the east, row by row, then those to the south, then
the diagonals. Spin (r, c) has the number ``r * cols + c``. ``Graph`` is any other planar graph, by points
with straight bonds, from networkx, or by a drawing. The energy is minus the sum of coupling times both
spins. Couplings are whole numbers, whose sizes sum to at most 2**44; ``from_real`` takes real ones, and
its answers have rigorous bounds. There are at most 2**22 spins; costs of all bonds, ranges of all bonds
and reports take at most 2**14.

Arrays are numpy's if numpy is installed, and read-only; else they are arrays of the module ``array``.
Any sequence of whole numbers is accepted. Wrong input raises a ``Refusal`` (a ``ValueError`` with
subclasses such as ``NotPlanar`` and ``TooLarge``), a ``TypeError``, a ``ValueError`` or an
``OverflowError``, and the text says what is allowed.

The library is loaded at the first call. Other threads run during a call of it. Ctrl-C ends the wait for a
long call at once; the call continues in the background and does not delay the end of the process.
"""

from __future__ import annotations

import warnings
from typing import TYPE_CHECKING

from ._answers import (
    Clusters,
    Cut,
    DomainWall,
    Ensemble,
    Ground,
    Join,
    OddCut,
    Report,
    Run,
    Sample,
    Step,
    Tour,
    Turn,
    Wall,
    Width,
    svg,
)
from ._batches import ground_many
from ._bundle import bundle
from ._calls import check, clusters, costs, ground, maxcut, ranges, report, wall
from ._costs import CostBounds
from ._decoding import Joins
from ._draws import draw, ensemble, sample, widths
from ._droplets import Droplet
from ._errors import (
    BadInstance,
    BadTerminals,
    BadText,
    LibraryMissing,
    NoProofFound,
    NoSeam,
    NotPlanar,
    Refusal,
    RefusalCode,
    TooLarge,
    UnknownLaw,
)
from ._graphs import Graph
from ._instances import Instance
from ._lattices import Lattice
from ._loops import Loop, Loops
from ._nests import Nest
from ._networks import Network, postman, tjoin
from ._reading import read
from ._real import RealCosts, RealGround, RealTurn, RealWall, Scale
from ._runs import run
from ._sampler import IsingSampler, SampleSet
from ._sequences import Lists, Pairs
from ._stopping import Stopped
from ._threads import in_order
from ._torus import Boundary, ExtendedGround, Torus
from ._verdicts import Verdict
from ._version import VERSION as __version__

__all__ = [
    "BadInstance",
    "BadTerminals",
    "BadText",
    "Boundary",
    "Clusters",
    "CostBounds",
    "Cut",
    "DomainWall",
    "Droplet",
    "Ensemble",
    "ExtendedGround",
    "Graph",
    "Ground",
    "Instance",
    "IsingSampler",
    "Join",
    "Joins",
    "Lattice",
    "LibraryMissing",
    "Lists",
    "Loop",
    "Loops",
    "Nest",
    "Network",
    "NoProofFound",
    "NoSeam",
    "NotPlanar",
    "OddCut",
    "Pairs",
    "RealCosts",
    "RealGround",
    "RealTurn",
    "RealWall",
    "Refusal",
    "RefusalCode",
    "Report",
    "Run",
    "Sample",
    "SampleSet",
    "Scale",
    "Step",
    "Stopped",
    "TooLarge",
    "Torus",
    "Tour",
    "Turn",
    "UnknownLaw",
    "Verdict",
    "Wall",
    "Width",
    "__version__",
    "bundle",
    "check",
    "clusters",
    "costs",
    "draw",
    "ensemble",
    "ground",
    "ground_many",
    "in_order",
    "maxcut",
    "postman",
    "ranges",
    "read",
    "report",
    "run",
    "sample",
    "svg",
    "tjoin",
    "wall",
    "widths",
]


if not TYPE_CHECKING:

    def __getattr__(name):
        """The old name of ``costs``, with a warning."""
        if name == "bonds":
            warnings.warn("ising2d.bonds is now ising2d.costs", DeprecationWarning, stacklevel=2)
            return costs
        raise AttributeError(f"module {__name__!r} has no attribute {name!r}")
