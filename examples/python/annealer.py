"""An annealer of ten lines, tested against proved minima of random square lattices."""

import math
import random

import ising2d

ROWS = COLS = 10
SAMPLES = 20


def anneal(lattice, source, sweeps=200):
    """Spins of low energy, perhaps."""
    around = [[] for _ in range(lattice.n)]
    for (u, v), coupling in zip(lattice.ends(), lattice.couplings.tolist()):
        around[u].append((v, coupling))
        around[v].append((u, coupling))
    spins = [source.choice((1, -1)) for _ in around]
    for sweep in range(sweeps):
        heat = 3.0 * (1 - sweep / sweeps) + 0.05
        for i, near in enumerate(around):
            rise = 2 * spins[i] * sum(coupling * spins[j] for j, coupling in near)
            if rise <= 0 or source.random() < math.exp(-rise / heat):
                spins[i] = -spins[i]
    return spins


def main():
    source, met = random.Random(7), 0
    print("sample  proved  annealed")
    for sample in range(SAMPLES):
        lattice = ising2d.draw("pm", sample, "square", ROWS, COLS)
        least = lattice.ground(loops=False).energy
        found = lattice.energy_of(anneal(lattice, source))
        assert found >= least, "no assignment has less energy than the proved minimum"
        met += found == least
        print(f"{sample:6}  {least:6}  {found:8}")
    print(f"the annealer met {met} of {SAMPLES} minima")


if __name__ == "__main__":
    main()
