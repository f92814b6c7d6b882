"""The sizes of rigid clusters: how many there are of each size, over many drawn lattices.

    python3 clusters.py [--law pm] [--length 200] [--samples 100] [--save sizes.json]

finds the rigid clusters of so many square lattices, by threads on all processors, and prints for each range
of sizes how many clusters there are for each million of spins, with error bars over the samples; then the
share of the largest cluster. With `--save` what was found is kept in a file, and a run that is stopped goes
on from there.
"""

import argparse
import json
import pathlib
import statistics
import time

import ising2d


def counted(law, length, seed):
    """How many clusters there are in each range of sizes, from one power of two to the next, and the size of
    the largest."""
    sizes = ising2d.draw(law, seed, "square", length, length).clusters().sizes
    found = {}
    for size in map(int, sizes.counts):
        found[size.bit_length() - 1] = found.get(size.bit_length() - 1, 0) + 1
    return {"largest": int(sizes.counts[0]), "counts": [found.get(k, 0) for k in range(max(found) + 1)]}


def mean_of(values):
    """The mean of some numbers with its error bar."""
    return statistics.fmean(values), statistics.stdev(values) / len(values) ** 0.5


def by_size(found):
    """For each power of two the mean number of clusters from this size to the next power, with its error bar."""
    for k in range(max(len(own["counts"]) for own in found)):
        yield mean_of([own["counts"][k] if k < len(own["counts"]) else 0 for own in found])


def main():
    ask = argparse.ArgumentParser(description=__doc__.splitlines()[0])
    ask.add_argument("--law", default="pm", choices=("pm", "gaussian", "uniform"))
    ask.add_argument("--length", type=int, default=200)
    ask.add_argument("--samples", type=int, default=100)
    ask.add_argument("--save", type=pathlib.Path)
    said = ask.parse_args()
    known = json.loads(said.save.read_text()) if said.save and said.save.exists() else {"found": [], "seconds": 0.0, "law": said.law, "length": said.length}
    begun, before = time.process_time(), known["seconds"]
    seeds = range(len(known["found"]) + 1, said.samples + 1)
    try:
        for found in ising2d.in_order(lambda seed: counted(said.law, said.length, seed), seeds):
            known["found"].append(found)
            known["seconds"] = round(before + time.process_time() - begun, 1)
            if said.save:
                said.save.write_text(json.dumps(known))
    except KeyboardInterrupt:
        print("stopped")
    show(known, said.length**2)


def show(known, spins):
    found = known["found"]
    if len(found) < 2:
        return print("at least two samples are needed")
    print(f"{len(found)} samples of {spins} spins, {known['seconds']} s of CPU time")
    print("size              clusters for each million spins")
    for k, own in enumerate(by_size(found)):
        mean, error = (1e6 * value / spins for value in own)
        print(f"{2**k:6} to {2 ** (k + 1) - 1:6}  {mean:10.1f} +- {error:.1f}")
    mean, error = mean_of([own["largest"] / spins for own in found])
    print(f"share of the largest cluster: {mean:.3f} +- {error:.3f}")


if __name__ == "__main__":
    main()
