"""Real couplings as whole numbers, and how far the answers for these can be from the real ones.

Each coupling x becomes the whole number nearest to ``scale * x``. Over all assignments the energies of the
two differ, in units of ``1 / scale``, by at most R, the sum of all rounding errors. So a least energy is
right up to R, a difference of two up to 2 R, and a bond whose cost is above 2 R is rigid for the real
couplings too (docs/ENCODING.md). R is computed exactly, or rounded up.
"""

from __future__ import annotations

import math
from dataclasses import dataclass
from decimal import Decimal
from fractions import Fraction
from typing import TYPE_CHECKING, Any, List, NamedTuple, Optional, Sequence, Tuple, Union

from ._arrays import as_array, is_bool, is_numpy, listed_of, numpy, read_only, refuse_unordered, shortened

if TYPE_CHECKING:
    from ._types import BoolArray, FloatArray, Int64Array, Real, Reals

_LARGEST_SUM = 2**44
# Within these powers of two a product of a float and a power of two that is not 0 is exact.
_LEAST_POWER, _LARGEST_POWER = -900, 900


@dataclass(frozen=True)
class Scale:
    """The scale of real couplings: ``scale`` is a positive rational number, and ``rounding`` the sum of
    all rounding errors in the unit of the whole numbers, rounded up.

    >>> import ising2d
    >>> lattice = ising2d.Lattice.from_real("square", 1, 3, [0.75, -1.5])
    >>> lattice.scale.rounding, lattice.scale.error
    (Fraction(0, 1), 0.0)
    """

    scale: Fraction
    rounding: Fraction

    @property
    def error(self) -> float:
        """How far a least energy can be from that of the real couplings, in the caller's unit."""
        return _rounded_up(self.rounding / self.scale)

    def value(self, number: int, times: int = 1) -> Bounded:
        """A number of the whole couplings in the caller's unit, and by how much it can be wrong, where
        it is right up to so many times the sum of all rounding errors."""
        exact = number / self.scale
        value = float(exact)
        return Bounded(value, _rounded_up(times * self.rounding / self.scale + abs(Fraction(value) - exact)))

    def is_certain(self, size: int) -> bool:
        """Whether a difference of two least energies of this size is above 0 for the real couplings."""
        return size > 2 * self.rounding

    def values(self, numbers: Int64Array) -> Tuple[FloatArray, float]:
        """Differences of two least energies in the caller's unit, and by how much each can be wrong."""
        listed = numbers.tolist()
        found = [float(number / self.scale) for number in listed]
        largest = max((abs(Fraction(value) - n / self.scale) for value, n in zip(found, listed)), default=0)
        return _floats(found), _rounded_up(2 * self.rounding / self.scale + largest)


class Bounded(NamedTuple):
    """A real number that is known up to ``error``: it lies from ``value - error`` to ``value + error``."""

    value: float
    error: float


class RealGround(NamedTuple):
    """A ground state in the unit of the real couplings. The least energy of these lies within ``error``
    of ``energy``; the spins have an energy of their own that is at most ``excess`` above it.

    >>> import ising2d
    >>> found = ising2d.Lattice.from_real("square", 2, 2, [0.3, 0.4, 0.2, -0.5]).ground()
    >>> round(found.real.energy, 9), found.real.error < 1e-12
    (-1.0, True)
    """

    energy: float
    error: float
    excess: float


class RealWall(NamedTuple):
    """The energies of a wall in the unit of the real couplings: ``periodic`` and ``antiperiodic`` are
    right up to ``error``, and ``difference`` up to ``difference_error``.

    >>> import ising2d
    >>> found = ising2d.Lattice.from_real("cylinder", 1, 3, [0.5, 0.7, 0.2]).wall()
    >>> round(found.real.difference, 9), found.real.difference_error < 1e-11
    (0.4, True)
    """

    periodic: float
    antiperiodic: float
    difference: float
    error: float
    difference_error: float


@dataclass(frozen=True, eq=False)
class RealCosts:
    """The costs of the bonds in the unit of the real couplings: ``values``, each right up to ``error``;
    and ``rigid``, true for a bond that is rigid for the real couplings for certain. Of the others nothing
    is known: their costs are too small for the rounding.

    >>> import ising2d
    >>> found = ising2d.Lattice.from_real("square", 1, 3, [0.5, 0.0]).real_costs()
    >>> list(map(float, found.values)), list(map(bool, found.rigid))
    ([1.0, 0.0], [True, False])
    """

    values: FloatArray
    error: float
    rigid: BoolArray


class RealTurn(NamedTuple):
    """The coupling of a bond at which the ground states change, in the unit of the real couplings, right up
    to ``error``; and on which side of it the bond's own real coupling lies: ``above``, ``below``, or
    ``unknown`` where the rounding does not tell."""

    coupling: float
    error: float
    side: str


def real_costs(scale: Scale, costs: Any) -> RealCosts:
    """The costs of a rounded instance for the real couplings."""
    values, error = scale.values(costs)
    rigid = [scale.is_certain(cost) for cost in costs.tolist()]
    return RealCosts(values, error, read_only(numpy.array(rigid)) if numpy is not None else rigid)


class Rounded(NamedTuple):
    """Whole couplings, with their scale if they were real ones."""

    couplings: Any
    scale: Optional[Scale] = None


def rounded(values: Reals, scale: Optional[Real] = None) -> Rounded:
    """Real numbers as whole ones: by the given scale, or else by the largest power of two for which the
    sizes sum to at most 2**44."""
    refuse_unordered(values, "couplings")
    chosen = None if scale is None else _scale_of(scale)
    if is_numpy(values) and numpy is not None:
        found = _of_numpy(values, chosen)
        if found is not None:
            return found
    return _of_list([real_number(value, "couplings") for value in listed_of(values, "couplings")], chosen)


def _scale_of(scale: Real) -> Fraction:
    found = Fraction(real_number(scale, "scale"))
    if found <= 0:
        raise ValueError(f"scale is {shortened(scale)} (allowed: above 0)")
    return found


def real_number(value: Any, what: str) -> Union[int, float, Fraction]:
    """A real number as it is, without rounding: an int, a float or a fraction. Others are refused."""
    if is_bool(value) or isinstance(value, (str, bytes, complex)):
        raise TypeError(f"{what}: expected a real number, not {shortened(value)}")
    if isinstance(value, (int, Fraction)):
        return value
    if hasattr(value, "__index__") and not hasattr(value, "__len__"):
        return int(value.__index__())
    try:
        found = float(value)
    except (TypeError, ValueError):
        raise TypeError(f"{what}: expected a real number, not {shortened(value)}") from None
    if not math.isfinite(found):
        raise ValueError(f"{what}: {found} is not a real number (allowed: finite numbers)")
    # A decimal number is exact as a fraction, and perhaps not as a float.
    return Fraction(value) if isinstance(value, Decimal) else found


def _of_numpy(values: Any, scale: Optional[Fraction]) -> Optional[Rounded]:
    """An array of floats, by a power of two; none where the exact way is needed."""
    if values.ndim != 1:
        raise TypeError(f"couplings: expected an array of one axis, not one of shape {values.shape}")
    if values.dtype.kind not in "fiu":
        if values.dtype.kind == "O":
            return None
        raise TypeError(f"couplings: expected real numbers, not an array of {values.dtype}")
    if values.dtype.kind != "f" or values.dtype.itemsize > 8:
        return None
    own = values.astype("float64")
    if not numpy.isfinite(own).all():
        wrong = own[~numpy.isfinite(own)][0]
        raise ValueError(f"couplings: {wrong} is not a real number (allowed: finite numbers)")
    power = _power_of(scale) if scale is not None else _largest_power(math.fsum(numpy.abs(own).tolist()))
    if power is None or not _LEAST_POWER <= power <= _LARGEST_POWER or not _are_plain(own):
        return None
    while True:
        scaled = numpy.ldexp(own, power)
        nearest = numpy.rint(scaled)
        if scale is not None or float(numpy.abs(nearest).sum()) <= _LARGEST_SUM:
            break
        power -= 1
    _fit(math.fsum(numpy.abs(nearest).tolist()), Fraction(2) ** power, bool(own.any()))
    # The error of each rounding is exact, and so is their sum but for its last bit.
    error = math.fsum(numpy.abs(scaled - nearest).tolist())
    rounding = Fraction(math.nextafter(error, math.inf)) if error else Fraction(0)
    return Rounded(nearest.astype("int64"), Scale(Fraction(2) ** power, rounding))


def _are_plain(values: Any) -> bool:
    """Whether no number but 0 is so small or so large that a product by a power of two is not exact."""
    sizes = numpy.abs(values[values != 0])
    return bool(not sizes.size or (sizes.min() > 1e-30 and sizes.max() < 1e30))


def _power_of(scale: Fraction) -> Optional[int]:
    """The power of two that a scale is, if it is one."""
    power = scale.numerator.bit_length() - scale.denominator.bit_length()
    return power if Fraction(2) ** power == scale else None


def _largest_power(total: float) -> int:
    """A power of two that is large enough, and perhaps one too large."""
    return 44 - (math.frexp(total)[1] - 1) if total else 0


def _of_list(values: List[Any], scale: Optional[Fraction]) -> Rounded:
    """Real numbers by exact arithmetic."""
    exact = [Fraction(value) for value in values]
    chosen = scale
    if chosen is None:
        chosen = _chosen(exact)
    scaled = [value * chosen for value in exact]
    nearest = [round(value) for value in scaled]
    _fit(sum(abs(n) for n in nearest), chosen, any(exact))
    rounding = sum((abs(x - n) for x, n in zip(scaled, nearest)), Fraction(0))
    return Rounded(as_array(nearest, "int64"), Scale(chosen, rounding))


def _chosen(exact: Sequence[Fraction]) -> Fraction:
    """The largest power of two that keeps the sum of sizes within its limit."""
    total = sum((abs(value) for value in exact), Fraction(0))
    if not total:
        return Fraction(1)
    power = _LARGEST_SUM.bit_length() + 1 - (total.numerator.bit_length() - total.denominator.bit_length())
    while sum(abs(round(value * Fraction(2) ** power)) for value in exact) > _LARGEST_SUM:
        power -= 1
    return Fraction(2) ** power


def _fit(total: float, scale: Fraction, is_any: bool) -> None:
    """Raises ``ValueError`` for a sum that is too large, or that leaves no precision."""
    if total > _LARGEST_SUM:
        raise ValueError(
            f"the scale {scale} is too large: the sizes of the rounded couplings sum to {int(total)} "
            "(allowed: at most 2**44; leave the scale out, and the largest power of two is taken)"
        )
    if is_any and not total:
        raise ValueError(f"the scale {scale} is too small: every coupling is rounded to 0")


def _rounded_up(value: Fraction) -> float:
    """The least float that is not below a number of 0 or more."""
    found = float(value)
    return found if Fraction(found) >= value else math.nextafter(found, math.inf)


def _floats(values: List[float]) -> Any:
    return read_only(numpy.array(values, dtype="float64")) if numpy is not None else values
