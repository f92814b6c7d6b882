"""A histogram of wall energies over many cylinders with couplings 1 and -1, on all processors.

    python3 walls.py 10000 8

takes 10,000 samples of 8 rows and 8 columns. Each process has its own part of the samples: a call
keeps no state, so nothing is shared.
"""

import collections
import multiprocessing
import random
import sys

import ising2d


def wall_of(task):
    """The wall energy of one sample: its seed tells it."""
    seed, size = task
    source = random.Random(seed)
    couplings = [source.choice((1, -1)) for _ in range(size * size + (size - 1) * size)]
    return ising2d.wall("cylinder", size, size, couplings).difference


def main():
    samples = int(sys.argv[1]) if len(sys.argv) > 1 else 10000
    size = int(sys.argv[2]) if len(sys.argv) > 2 else 8
    tasks = [(seed, size) for seed in range(samples)]
    with multiprocessing.get_context("spawn").Pool() as pool:
        counts = collections.Counter(pool.imap_unordered(wall_of, tasks, chunksize=64))
    print("wall energy  samples")
    for energy in sorted(counts):
        print(f"{energy:11}  {counts[energy]:7}")


if __name__ == "__main__":
    main()
