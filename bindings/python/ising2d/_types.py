"""Types of the arguments and results of the package. What other packages hand in is described by protocols,
so none of them is imported for its types."""

from __future__ import annotations

from typing import (
    TYPE_CHECKING,
    Any,
    Dict,
    Hashable,
    Iterable,
    Iterator,
    List,
    Mapping,
    Protocol,
    Sequence,
    SupportsFloat,
    SupportsIndex,
    Tuple,
    Union,
)

# A whole number by its own account: an int, or an integer of numpy. A bool is refused.
Whole = SupportsIndex
Point = Tuple[float, float]
Label = Hashable

if TYPE_CHECKING:
    from fractions import Fraction

    import numpy
    from numpy.typing import NDArray

    # Arrays of answers. Where numpy is missing they are arrays of the module ``array``, or lists.
    Int8Array = NDArray[numpy.int8]
    Int64Array = NDArray[numpy.int64]
    UInt32Array = NDArray[numpy.uint32]
    UInt64Array = NDArray[numpy.uint64]
    FloatArray = NDArray[numpy.float64]
    BoolArray = NDArray[numpy.bool_]
    AnyIntegers = NDArray[numpy.integer[Any]]

    Integers = Union[Iterable[Whole], AnyIntegers]
    Couplings = Union[Integers, Tuple[AnyIntegers, AnyIntegers]]
    Triples = Union[Iterable[Sequence[Whole]], AnyIntegers]
    TorusCouplings = Tuple[
        Union[Sequence[Sequence[Whole]], AnyIntegers], Union[Sequence[Sequence[Whole]], AnyIntegers]
    ]
    TerminalLists = Union[Iterable[Union[Iterable[Hashable], Integers]], BoolArray]
    Pairs = Union[Iterable[Sequence[Whole]], AnyIntegers]
    Real = Union[float, int, Fraction]
    Reals = Union[Iterable[Real], NDArray[numpy.floating[Any]], AnyIntegers]
    RealTriples = Union[Iterable[Sequence[Real]], NDArray[numpy.floating[Any]]]
    Points = Union[Iterable[Sequence[Real]], NDArray[numpy.floating[Any]], AnyIntegers]
    Places = Union[Mapping[Any, Sequence[float]], Iterable[Sequence[float]]]


class NetworkxEdges(Protocol):
    """The edges of a graph of networkx."""

    def __call__(self, *, data: bool = ..., keys: bool = ...) -> Iterable[Tuple[Any, ...]]: ...


class NetworkxNodes(Protocol):
    """The nodes of a graph of networkx."""

    def __iter__(self) -> Iterator[Any]: ...

    def __call__(self, *, data: bool = ...) -> Iterable[Tuple[Any, Dict[str, Any]]]: ...


class NetworkxGraph(Protocol):
    """What is used of a graph or multigraph of networkx."""

    @property
    def nodes(self) -> Any: ...

    @property
    def edges(self) -> Any: ...

    def is_directed(self) -> bool: ...

    def is_multigraph(self) -> bool: ...


class QuadraticModel(Protocol):
    """What is used of a binary quadratic model of dimod."""

    @property
    def linear(self) -> Mapping[Any, SupportsFloat]: ...

    @property
    def quadratic(self) -> Mapping[Tuple[Any, Any], SupportsFloat]: ...


class SparseMatrix(Protocol):
    """What is used of a sparse matrix of scipy."""

    def tocoo(self) -> Any: ...


Ends = List[Tuple[int, int]]
