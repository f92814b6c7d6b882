"""Laws of disorder beyond those of the program, over the same stream of words: the generator
``Lcg64Xsh32`` of ``rand_pcg`` with the stream 54 (docs/FORMATS.md, "Laws of disorder").

A law is drawn in plain integer and IEEE arithmetic, without a function of the C library, so the same seed
gives the same couplings on every machine, with numpy and without.
"""

from __future__ import annotations

import math
from fractions import Fraction
from typing import Any, Callable, Dict, List, NamedTuple, Optional, Sequence, Tuple, Union

from ._arrays import as_array, is_bool, numpy, read_only, shortened

_MULTIPLIER, _INCREMENT, _MASK = 6364136223846793005, 2 * 54 + 1, 2**64 - 1
UNIT = 2**20


class Stream:
    """The words of 32 bits after a seed, from a place on.

    >>> [hex(word) for word in Stream(42).words(2)]
    ['0xa15c02b7', '0x7b47f409']
    """

    def __init__(self, seed: int) -> None:
        self.state = ((seed + _INCREMENT) * _MULTIPLIER + _INCREMENT) & _MASK

    def words(self, count: int) -> Any:
        """The next words, as an array of numpy or a list."""
        if numpy is None:
            return [self._word() for _ in range(count)]
        states = self._states(count)
        turn = states >> numpy.uint64(59)
        value = ((states >> numpy.uint64(18)) ^ states) >> numpy.uint64(27) & numpy.uint64(2**32 - 1)
        back = (numpy.uint64(32) - turn) & numpy.uint64(31)
        return (value >> turn | value << back) & numpy.uint64(2**32 - 1)

    def skip(self, count: int) -> None:
        """Goes over so many words, in as many steps as the number has bits."""
        factor, shift = _MULTIPLIER, _INCREMENT
        while count:
            if count & 1:
                self.state = (self.state * factor + shift) & _MASK
            factor, shift = factor * factor & _MASK, shift * (factor + 1) & _MASK
            count >>= 1

    def _word(self) -> int:
        state = self.state
        self.state = (state * _MULTIPLIER + _INCREMENT) & _MASK
        turn, value = state >> 59, ((state >> 18) ^ state) >> 27 & 2**32 - 1
        return (value >> turn | value << (-turn & 31)) & 2**32 - 1

    def _states(self, count: int) -> Any:
        """The next states. Products and sums of 64 bits wrap, as they are to do."""
        factors = numpy.full(count + 1, _MULTIPLIER, dtype="uint64")
        factors[0] = 1
        powers = numpy.multiply.accumulate(factors)
        sums = numpy.add.accumulate(powers)
        states = powers * numpy.uint64(self.state)
        states[1:] += sums[:-1] * numpy.uint64(_INCREMENT)
        self.state = int(states[-1])
        return states[:-1]


class Law(NamedTuple):
    """A law: how many words one coupling takes, and the couplings of so many words."""

    words: int
    draw: Callable[[Any, int], Any]


def _columns(words: Any, count: int) -> Tuple[Any, Any]:
    """The first and the second word of each coupling."""
    return words[0 : 2 * count : 2], words[1 : 2 * count : 2]


def _signs(words: Any) -> Any:
    """1 for an even word, and -1 for an odd one."""
    if numpy is not None:
        return 1 - 2 * (words & numpy.uint64(1)).astype("int64")
    return [1 - 2 * (word & 1) for word in words]


def _pm(words: Any, count: int) -> Any:
    return _signs(words)


def _uniform(words: Any, count: int) -> Any:
    if numpy is not None:
        return (words % numpy.uint64(2**21)).astype("int64") - UNIT
    return [word % 2**21 - UNIT for word in words]


def negative(share: Fraction) -> Law:
    """-1 with this probability, and else 1."""
    bound = int(share * 2**32)

    def draw(words: Any, count: int) -> Any:
        if numpy is not None:
            return 1 - 2 * (words < numpy.uint64(bound)).astype("int64")
        return [1 - 2 * (word < bound) for word in words]

    return Law(1, draw)


def diluted(share: Fraction) -> Law:
    """0 with this probability, and else 1 or -1, each as likely."""
    bound = int(share * 2**32)

    def draw(words: Any, count: int) -> Any:
        first, second = _columns(words, count)
        if numpy is not None:
            return _signs(second) * (first >= numpy.uint64(bound))
        return [sign * (word >= bound) for word, sign in zip(first, _signs(second))]

    return Law(2, draw)


def _gaussian(words: Any, count: int) -> Any:
    """The normal quantile of a number of 52 bits in the middle of its cell, times 2**20, rounded."""
    first, second = _columns(words, count)
    if numpy is not None:
        bits = (first << numpy.uint64(20) | second >> numpy.uint64(12)).astype("float64")
        return numpy.rint(UNIT * _quantiles((bits + 0.5) * 2.0**-52)).astype("int64")
    return [
        round(UNIT * _quantile(((one << 20 | other >> 12) + 0.5) * 2.0**-52))
        for one, other in zip(first, second)
    ]


# Coefficients of Wichura's algorithm AS 241 (PPND16), numerators and denominators from the highest power on:
# in the middle, in the near tail and in the far one.
_MIDDLE = (
    (2.5090809287301226727e3, 3.3430575583588128105e4, 6.7265770927008700853e4, 4.5921953931549871457e4)
    + (1.3731693765509461125e4, 1.9715909503065514427e3, 1.3314166789178437745e2, 3.387132872796366608e0),
    (5.226495278852854561e3, 2.8729085735721942674e4, 3.9307895800092710610e4, 2.1213794301586595867e4)
    + (5.3941960214247511077e3, 6.8718700749205790830e2, 4.2313330701600911252e1, 1.0),
)
_NEAR = (
    (7.74545014278341407640e-4, 2.27238449892691845833e-2, 2.41780725177450611770e-1)
    + (1.27045825245236838258e0, 3.64784832476320460504e0, 5.76949722146069140550e0)
    + (4.63033784615654529590e0, 1.42343711074968357734e0),
    (1.05075007164441684324e-9, 5.47593808499534494600e-4, 1.51986665636164571966e-2)
    + (1.48103976427480074590e-1, 6.89767334985100004550e-1, 1.67638483018380384940e0)
    + (2.05319162663775882187e0, 1.0),
)
_FAR = (
    (2.01033439929228813265e-7, 2.71155556874348757815e-5, 1.24266094738807843860e-3)
    + (2.65321895265761230930e-2, 2.96560571828504891230e-1, 1.78482653991729133580e0)
    + (5.46378491116411436990e0, 6.65790464350110377720e0),
    (2.04426310338993978564e-15, 1.42151175831644588870e-7, 1.84631831751005468180e-5)
    + (7.86869131145613259100e-4, 1.48753612908506148525e-2, 1.36929880922735805310e-1)
    + (5.99832206555887937690e-1, 1.0),
)
_LOG_TWO, _ROOT = 0.6931471805599453, 0.7071067811865476
_LOG_TERMS = tuple(1.0 / (2 * k + 1) for k in range(11, -1, -1))


def _ratio(parts: Tuple[Sequence[float], Sequence[float]], x: Any) -> Any:
    above, below = (_polynomial(part, x) for part in parts)
    return above / below


def _polynomial(coefficients: Sequence[float], x: Any) -> Any:
    """By Horner's rule: each product and each sum is rounded by itself, as IEEE says."""
    found = coefficients[0] + 0.0 * x
    for coefficient in coefficients[1:]:
        found = found * x
        found = found + coefficient
    return found


def _logarithm(mantissa: Any, power: Any) -> Any:
    """The natural logarithm of a number by its mantissa, from a root of a half on, and its power of two."""
    t = (mantissa - 1.0) / (mantissa + 1.0)
    return 2.0 * t * _polynomial(_LOG_TERMS, t * t) + power * _LOG_TWO


def _quantile(p: float) -> float:
    """The normal quantile of a probability."""
    q = p - 0.5
    if abs(q) <= 0.425:
        return float(q * _ratio(_MIDDLE, 0.180625 - q * q))
    mantissa, power = math.frexp(p if q < 0 else 1.0 - p)
    if mantissa < _ROOT:
        mantissa, power = 2.0 * mantissa, power - 1
    r = math.sqrt(-_logarithm(mantissa, float(power)))
    size = _ratio(_NEAR, r - 1.6) if r <= 5.0 else _ratio(_FAR, r - 5.0)
    return float(-size if q < 0 else size)


def _quantiles(p: Any) -> Any:
    """The same of an array, number by number the same."""
    q = p - 0.5
    found = q * _ratio(_MIDDLE, 0.180625 - q * q)
    tail = numpy.abs(q) > 0.425
    mantissa, power = numpy.frexp(numpy.where(q < 0, p, 1.0 - p)[tail])
    small = mantissa < _ROOT
    mantissa = numpy.where(small, 2.0 * mantissa, mantissa)
    r = numpy.sqrt(-_logarithm(mantissa, (power - small).astype("float64")))
    sizes = numpy.where(r <= 5.0, _ratio(_NEAR, r - 1.6), _ratio(_FAR, r - 5.0))
    found[tail] = numpy.where(q[tail] < 0, -sizes, sizes)
    return found


def _one(words: Any, count: int) -> Any:
    return as_array([1] * count, "int64")


LAWS: Dict[str, Law] = {
    "one": Law(0, _one),
    "pm": Law(1, _pm),
    "uniform": Law(1, _uniform),
    "gaussian": Law(2, _gaussian),
}
SHARED: Dict[str, Callable[[Fraction], Law]] = {"negative": negative, "diluted": diluted}


class Source:
    """Couplings of a law after a seed, drawn one after another."""

    def __init__(self, law: str, seed: int, share: Optional[Fraction] = None) -> None:
        self.law, self.drawn, self.seed = law, 0, seed
        self.stream = Stream(seed)
        self.own = LAWS.get(law) if share is None else SHARED[law](share)

    def skip(self, count: int) -> None:
        """Goes over so many couplings."""
        self.drawn += count
        if self.own is not None:
            self.stream.skip(count * self.own.words)

    def couplings(self, count: int) -> Any:
        """The next couplings, as an array."""
        if self.own is None:
            first = self.seed + self.drawn
            found: Any = [1 - 2 * ((first + i) % 2) for i in range(count)]
        else:
            found = self.own.draw(self.stream.words(count * self.own.words), count)
        self.drawn += count
        if numpy is not None:
            return read_only(numpy.asarray(found, dtype="int64"))
        return as_array(list(found), "int64")


def share_of(p: Union[float, int, Fraction, None], law: str) -> Optional[Fraction]:
    """The probability of a law that has one, exactly as it is given."""
    if law not in SHARED:
        if p is not None:
            raise ValueError(f"p is {shortened(p)}, and the law {law} has none (those with one: {', '.join(SHARED)})")
        return None
    if p is None:
        raise ValueError(f"the law {law} needs p, a probability from 0 to 1")
    if is_bool(p) or not isinstance(p, (int, float, Fraction)):
        raise TypeError(f"p: expected a probability, not {shortened(p)}")
    if not 0 <= p <= 1:
        raise ValueError(f"p is {shortened(p)} (allowed: 0 to 1)")
    return Fraction(p)
