"""What a lattice and a graph have in common: the calls that solve them."""

from __future__ import annotations

from typing import TYPE_CHECKING, Any, Callable, List, Literal, Optional, TypeVar, Union, overload

from . import _ffi
from ._answers import Clusters, Cut, DomainWall, Ground, Report, Turn, Wall, turn_of
from ._arrays import as_array, is_numpy, shortened, whole, whole_numbers
from ._costs import CostBounds, asked_bonds, bounds_of, costs_of, enclosed, refuse_all_of, unknown_bounds
from ._droplets import Droplet, forcing
from ._loops import Loop
from ._model import Model
from ._real import RealCosts, RealTurn, Scale, real_costs, rounded
from ._runs import answered, json_of, loops_in, members_of, one_of, records_in
from ._stopping import Telling, awaited, refuse_progress
from ._threads import MANY_STATES, ONE_STATE, interruptible, thread_count
from ._types import Whole

if TYPE_CHECKING:
    from ._types import Couplings, Int64Array, Integers, Real, Reals

Own = TypeVar("Own", bound="Instance")
Result = TypeVar("Result")


class Instance(Model):
    """A lattice or a graph with its couplings: ``n`` is its number of spins. Each call raises ``Refusal``
    if the numbers give no such instance, ``MemoryError`` if memory runs out, and ``NoProofFound``."""

    def with_couplings(self: Own, couplings: Couplings) -> Own:
        """The same bonds with other couplings, as many as before."""
        own: Own = self._with(whole_numbers(couplings, "int64", "couplings"), None)
        return own

    def with_real(self: Own, couplings: Reals, scale: Optional[Real] = None) -> Own:
        """The same bonds with real couplings: floats, ints or fractions, which are multiplied by ``scale``
        and rounded to the nearest whole numbers. Without ``scale`` the largest power of two is taken
        that keeps the sum of the couplings' sizes within 2**44. The answers know the scale."""
        found = rounded(couplings, scale)
        own: Own = self._with(found.couplings, found.scale)
        return own

    def negated(self: Own) -> Own:
        """The instance with the sign of each coupling changed."""
        own: Own = self._with(self._negated(), self.scale)
        return own

    def turned_at_seam(self: Own) -> Own:
        """The instance with the signs of the seam's couplings changed."""
        own: Own = self._with(self._seam_changed(), self.scale)
        return own

    def _one(self, call: Callable[..., Result], *arguments: Any) -> Result:
        """A call that finds one ground state, or two."""
        return interruptible(self._spin_room() > ONE_STATE, call, self, *arguments)

    def _many(self, call: Callable[..., Result], *arguments: Any) -> Result:
        """A call that finds many ground states."""
        return interruptible(self._spin_room() > MANY_STATES, call, self, *arguments)

    def ground(self, loops: Optional[bool] = None, nest: Optional[bool] = None) -> Ground:
        """A ground state, with the least spin of each component up, and what proves it: up to 2048 spins
        the loops, beyond that the nest, or what is asked for by ``loops=True`` or ``nest=True``; with
        ``loops=False`` alone no proof."""
        energy, spins, found, regions = self._one(_ffi.ground_of, loops, nest)
        return Ground(energy, spins, found, self, regions)

    @overload
    def wall(self, states: Literal[False] = False) -> Wall: ...

    @overload
    def wall(self, states: Literal[True]) -> DomainWall: ...

    @overload
    def wall(self, states: bool) -> Union[Wall, DomainWall]: ...

    def wall(self, states: bool = False) -> Union[Wall, DomainWall]:
        """What the least energy gains where the signs of the seam's couplings are changed. With
        ``states=True`` it has both ground states with their proofs, and the bonds between them."""
        energies = Wall(*self._one(_ffi.wall_of), self)
        return self._with_states(energies) if states else energies

    def _with_states(self, energies: Wall) -> DomainWall:
        first, second = self.ground(), self.turned_at_seam().ground()
        if (first.energy, second.energy) != (energies.periodic, energies.antiperiodic):
            raise RuntimeError("the ground states do not have the energies of the wall")
        between = tuple(self._between(first.spins, second.spins))
        return DomainWall(
            energies.periodic, energies.antiperiodic, energies.difference, first, second, between
        )

    def costs(
        self,
        bonds: Optional[Integers] = None,
        bounds: Optional[CostBounds] = None,
        progress: Telling = None,
        threads: Optional[Whole] = None,
    ) -> Int64Array:
        """The cost of flipping each bond, in the unit of the couplings: an array of shape ``(bonds,)``. A
        bond is rigid if it costs more than 0.

        With ``bonds``, a list of bond numbers, the costs of these bonds in their order, for up to 2**22
        spins. Costs of all bonds are found for up to 2**14 spins. ``bounds`` are known bounds to start from,
        those of a search that was stopped; wrong bounds give wrong costs. ``progress`` is called with the
        number of finished bonds and the number of all bonds of the search, and stops the search if it
        returns False; by default a bar is shown if standard error is a terminal, and False shows none. If
        Ctrl-C or ``progress`` stops the search, ``Stopped`` is raised; its ``found`` are the bounds so far.
        ``threads`` is the number of threads, by default that of the processors."""
        refuse_progress(progress)
        workers = thread_count(threads)
        if bonds is None and bounds is None and self.n <= _ffi.PROGRAM_SPINS and not callable(progress):
            found: Int64Array = self._many(_ffi.costs_of)
            return found
        self._tables()
        count = len(self.couplings)
        if bonds is None:
            refuse_all_of(self.n)
        asked = as_array(list(range(count)), "uint32") if bonds is None else asked_bonds(bonds, count)
        known = unknown_bounds(count) if bounds is None else bounds_of(bounds, count)
        own: Int64Array = costs_of(self, asked, known, progress, workers)
        return own

    def cost_bounds(
        self, rounds: Whole = 24, bounds: Optional[CostBounds] = None, progress: Telling = None
    ) -> CostBounds:
        """Bounds of the costs of all bonds of up to 2**22 spins, in the unit of the couplings: ``low`` and
        ``high``, two arrays of shape ``(bonds,)``, equal where the cost is known. The lower bound of a rigid
        bond is 2 or more; both bounds of any other are 0. How near they are otherwise is not promised,
        whatever the number of ``rounds`` is.

        ``rounds``, from 0 to 2**32 - 1, is the number of ground states of weakened couplings, beside the
        ground states that ``clusters`` takes. Each bond is weakened by an amount d in the direction that a
        ground state satisfies: if that still is a ground state, each bond costs at least 2 d, and else the
        spins that flip bound costs from above. ``bounds`` are known bounds to start from, and none returned
        is looser; wrong bounds give wrong ones. ``costs(bounds=..)`` starts from these. ``progress`` is that
        of ``clusters``. Raises ``ValueError`` for other ``rounds`` or malformed ``bounds``."""
        count = whole(rounds, "rounds")
        if not 0 <= count < 2**32:
            raise ValueError(f"rounds: expected 0 to {2**32 - 1}, not {count}")
        self._tables()
        bonds = len(self.couplings)
        known = unknown_bounds(bonds) if bounds is None else bounds_of(bounds, bonds)
        return self._awaited(progress, "bounds of costs", lambda given: enclosed(given, count, known))

    def clusters(self, progress: Telling = None) -> Clusters:
        """The rigid clusters of up to 2**22 spins: for each spin the least spin of its cluster, and the
        sizes. ``progress`` is called now and then, with 0 and 1, and stops the waiting if it returns False."""
        return Clusters(self._awaited(progress, "clusters", _ffi.clusters_of), self)

    def _awaited(self, progress: Telling, what: str, call: Callable[..., Result]) -> Result:
        """One long call."""
        if self._spin_room() <= MANY_STATES and not callable(progress):
            refuse_progress(progress)
            return call(self)
        return awaited(progress, f"{what} of {self.n} spins", call, self)

    def droplet(self, bond: Whole, ground: Optional[Ground] = None) -> Droplet:
        """The cheapest excitation that flips a bond: its cost, the spins that flip, and the bonds of their
        border, with the proof: the ground state of the instance in which the bond is forced to flip.
        ``ground`` is a ground state of this instance, if one is known."""
        number = whole(bond, "bond")
        if not 0 <= number < len(self.couplings):
            raise ValueError(f"bond: there is no bond {number} (allowed: 0 to {len(self.couplings) - 1})")
        if ground is not None and not isinstance(ground, Ground):
            raise TypeError(f"ground: expected a Ground, not {shortened(ground)}")
        base = self.ground() if ground is None else ground
        if base.instance is not self and base.instance != self:
            raise ValueError("ground: it is a ground state of another instance")
        strong = forcing(self, number, base.spins)
        return Droplet.between(number, base, self._with_one(number, strong).ground())

    def _with_one(self: Own, bond: int, coupling: int) -> Own:
        """The instance with another coupling of one bond."""
        changed = self.couplings.copy() if is_numpy(self.couplings) else self.couplings[:]
        changed[bond] = coupling
        own: Own = self._with(changed, self.scale)
        return own

    def ranges(
        self, bonds: Optional[Integers] = None, progress: Telling = None, threads: Optional[Whole] = None
    ) -> List[Turn]:
        """For each bond the coupling at which the ground states change, and the side on which its own
        coupling lies. ``bonds`` and the other arguments are those of ``costs``."""
        if bonds is None and self.n <= _ffi.PROGRAM_SPINS:
            text = answered(["ranges"], json_of(self), self)
            return [Turn(int(fields[1]), fields[2]) for _, fields in records_in(text)]
        costs = self.costs(bonds, None, progress, threads).tolist()
        chosen = range(len(self.couplings)) if bonds is None else asked_bonds(bonds, len(self.couplings)).tolist()
        unlike = set(self._unlike(self.ground(loops=False).spins))
        couplings = self.couplings.tolist()
        return [turn_of(couplings[k], cost, k in unlike) for k, cost in zip(chosen, costs)]

    def maxcut(self) -> Cut:
        """The largest cut, with the couplings as weights, and its proof: loops within the limits of the
        program, a nest beyond them."""
        if self.n > _ffi.PROGRAM_SPINS:
            return self._large_cut()
        text = answered(["maxcut"], json_of(self), self)
        spins = as_array(one_of(text, "spins"), "int8")
        return Cut(one_of(text, "cut")[0], spins, loops_in(text), self, self.negated())

    def _large_cut(self) -> Cut:
        """What is cut by a ground state of the instance with every sign changed."""
        negated = self.negated()
        found = negated.ground()
        weight, left = divmod(sum(self.couplings.tolist()) - found.energy, 2)
        if left:
            raise RuntimeError("the ground state has an odd energy beside the sum of the couplings")
        return Cut(weight, found.spins, found.loops, self, negated, found.nest)

    def report(self, progress: Telling = None, threads: Optional[Whole] = None) -> Report:
        """All numbers at once, for up to 2**14 spins, with loops within the limits of the program and a nest
        beyond them. ``progress`` and ``threads`` are as for ``costs``."""
        if self.n > _ffi.PROGRAM_SPINS:
            return self._large_report(progress, threads)
        found = members_of(answered(["report"], json_of(self), self))
        return Report(
            found["bonds"],
            found["energy"],
            found["sum"],
            as_array(found["spins"], "int8"),
            tuple(Loop(loop["y"], tuple(loop["bonds"])) for loop in found["loops"]),
            as_array(found["costs"], "int64"),
            Clusters(as_array(found["clusters"], "uint32"), self),
            Wall(**found["wall"], instance=self) if found["wall"] else None,
            self,
        )

    def _large_report(self, progress: Telling, threads: Optional[Whole]) -> Report:
        refuse_all_of(self.n)
        state, clusters = self.ground(), self.clusters()
        wall = self.wall() if self.seam_bonds() else None
        costs = self.costs(None, None, progress, threads)
        size = sum(map(abs, self.couplings.tolist()))
        own = len(self.couplings), state.energy, size, state.spins, state.loops, costs, clusters, wall, self
        return Report(*own, state.nest)

    # Real couplings.

    def _scale(self) -> Scale:
        if self.scale is None:
            raise ValueError("the couplings are whole numbers: see costs, or from_real for real ones")
        return self.scale

    def real_costs(
        self,
        bonds: Optional[Integers] = None,
        bounds: Optional[CostBounds] = None,
        progress: Telling = None,
        threads: Optional[Whole] = None,
    ) -> RealCosts:
        """The costs in the unit of the real couplings that this was made of, each with its error, and
        which bonds are rigid for these for certain. The arguments are those of ``costs``."""
        scale = self._scale()
        return real_costs(scale, self.costs(bonds, bounds, progress, threads))

    def real_ranges(self) -> List[RealTurn]:
        """For each bond the coupling at which the ground states change, in the unit of the real couplings
        that this was made of, with its error, and the side on which its own real coupling lies."""
        scale, found = self._scale(), []
        for turn, own in zip(self.ranges(), self.couplings.tolist()):
            value = scale.value(turn.coupling)
            side = turn.side if scale.is_certain(2 * abs(own - turn.coupling)) else "unknown"
            found.append(RealTurn(value.value, value.error, side))
        return found
