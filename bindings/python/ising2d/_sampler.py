"""A sampler with the interface of dimod's, whose one sample is a proved ground state."""

from __future__ import annotations

import importlib
from typing import Any, Dict, Hashable, Iterator, Mapping, NamedTuple, Optional, Protocol, Tuple, cast

from ._arrays import shortened
from ._convert import refuse_fields
from ._graphs import Graph
from ._types import QuadraticModel


class Sampled(NamedTuple):
    """A sample of a ``SampleSet``: the value of each variable, the energy, and how often it was found."""

    sample: Dict[Hashable, int]
    energy: float
    num_occurrences: int


class Samples(Protocol):
    """What a set of samples has, dimod's or our own."""

    @property
    def first(self) -> Sampled: ...

    @property
    def info(self) -> Dict[str, object]: ...

    def __len__(self) -> int: ...


class SampleSet:
    """One sample, as dimod's sets have theirs: ``first.sample`` and ``first.energy``. It is what
    ``IsingSampler`` returns if dimod is not installed.

    >>> found = SampleSet({"a": 1}, 0.0)
    >>> found.first.sample, found.first.energy, len(found)
    ({'a': 1}, 0.0, 1)
    """

    vartype = "SPIN"

    def __init__(self, sample: Mapping[Hashable, int], energy: float) -> None:
        self.first = Sampled(dict(sample), energy, 1)
        self.info: Dict[str, object] = {}

    def __len__(self) -> int:
        return 1

    def __iter__(self) -> Iterator[Dict[Hashable, int]]:
        return iter([self.first.sample])

    def data(self) -> Iterator[Sampled]:
        """The samples with their energies."""
        return iter([self.first])

    def __repr__(self) -> str:
        return f"<sample of {len(self.first.sample)} spins: energy {self.first.energy}>"


class _Model(NamedTuple):
    """Biases in the form of a binary quadratic model."""

    linear: Mapping[Any, Any]
    quadratic: Mapping[Tuple[Any, Any], Any]
    offset: float = 0.0


class IsingSampler:
    """Ground states of planar Ising models without fields, with the interface of dimod's samplers. The
    sample is a ground state of the biases, which may be real; those that are no multiples of one power of
    two are rounded, and ``info["error"]`` bounds how far the energy can be from the least.

    Energies have dimod's sign: the sum of bias times both spins, plus the offset. A field that is not 0
    raises ``ValueError``, and a graph that is not planar ``NotPlanar``. ``info["proof"]`` is the proved
    ``Ground``. networkx finds the drawing.

    >>> sampler = IsingSampler()
    >>> sampler.parameters, sampler.properties["planar"]
    ({}, True)
    """

    def __init__(self) -> None:
        self.parameters: Dict[str, object] = {}
        self.properties: Dict[str, object] = {"planar": True, "exact": True}

    def sample(self, bqm: QuadraticModel) -> Samples:
        """The ground state of a binary quadratic model of spins: dimod's ``SampleSet`` if dimod is
        installed, and else our own."""
        graph = Graph.from_bqm(bqm, real=True)
        found = graph.ground()
        # A dictionary, as samplers hand out theirs.
        spins = dict(found.by_node().items())
        energy = float(getattr(bqm, "offset", 0.0)) + sum(
            float(bias) * spins[u] * spins[v] for (u, v), bias in bqm.quadratic.items()
        )
        info = {"proof": found, "error": found.real.excess}
        return _set_of(spins, energy, info)

    def sample_ising(
        self, h: Optional[Mapping[Hashable, float]], J: Mapping[Tuple[Hashable, Hashable], float]
    ) -> Samples:
        """The ground state of the biases ``J`` by pairs of variables; the fields ``h`` must be 0."""
        if h is not None and not isinstance(h, Mapping):
            raise TypeError(f"h: expected a dictionary of fields, not {shortened(h)}")
        if not isinstance(J, Mapping):
            raise TypeError(f"J: expected a dictionary of biases, not {shortened(J)}")
        refuse_fields(h or {})
        return self.sample(_Model(dict(h or {}), dict(J)))


def _set_of(spins: Mapping[Hashable, int], energy: float, info: Dict[str, object]) -> Samples:
    try:
        dimod = importlib.import_module("dimod")
    except ImportError:
        own = SampleSet(spins, energy)
        own.info = info
        return own
    found = dimod.SampleSet.from_samples([spins], vartype="SPIN", energy=[energy], info=info)
    return cast(Samples, found)
