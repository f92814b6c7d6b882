#!/usr/bin/env python3
"""Makes docs/TOUR.md with its pictures: every number and picture of the page comes from here.

    PYTHONPATH=bindings/python python3 docs/tour/make.py [--walls] [--times] [--codes]

It needs the library (bindings/build), numpy and matplotlib. The wall energies are drawn, the times measured
and the codes decoded again on request, which takes some minutes; otherwise they are read from
docs/tour/walls.json, times.json and codes.json. The times need networkx and scipy too. large-walls.json,
large-clusters.json and the clusters of shorter lattices are what the runs write that the page names.
"""

import concurrent.futures
import json
import multiprocessing
import sys
import time
from pathlib import Path

import matplotlib

matplotlib.use("svg")
matplotlib.rcParams.update({"svg.fonttype": "none", "svg.hashsalt": "ising2d"})
import matplotlib.pyplot as plot
import numpy

import ising2d
import peers

HERE = Path(__file__).resolve().parent
sys.path.append(str(HERE.parent.parent / "examples" / "python"))
import clusters
import toric_code

SIZES = (4, 6, 8, 12, 16, 24, 32, 44)
LOTS, COUNT = 8, 1000
LEAST_FITTED = 8
HEIGHTS = (0.4, 0.5, 0.6, 0.7)
LITERATURE = -0.28
SHOTS = 20000
THRESHOLD = 0.1031
# The powers of two between which the sizes of clusters are fitted.
FITTED_POWERS = 4, 10


def walls_of(task):
    """The sizes of the wall energies of one lot, with a seed of its own."""
    size, lot = task
    found = ising2d.ensemble("uniform", 1000 * size + lot, size, size, COUNT)
    return size, found.mean_size / 2**20


def stiffness():
    """For each length the mean size of a wall energy and its error bar, over all lots."""
    means = {size: [] for size in SIZES}
    tasks = [(size, lot) for size in reversed(SIZES) for lot in range(LOTS)]
    with concurrent.futures.ProcessPoolExecutor(mp_context=multiprocessing.get_context("spawn")) as pool:
        for size, mean in pool.map(walls_of, tasks):
            means[size].append(mean)
    return [
        (size, float(numpy.mean(own)), float(numpy.std(own, ddof=1)) / len(own) ** 0.5)
        for size, own in means.items()
    ]


def fitted(rows):
    """The slope of the logarithms and its error, each point weighed by its error bar; and the
    intercept."""
    x = numpy.log([size for size, _, _ in rows])
    y = numpy.log([mean for _, mean, _ in rows])
    weight = numpy.array([(mean / error) ** 2 for _, mean, error in rows])
    mean_x, mean_y = (weight * x).sum() / weight.sum(), (weight * y).sum() / weight.sum()
    spread = (weight * (x - mean_x) ** 2).sum()
    slope = (weight * (x - mean_x) * (y - mean_y)).sum() / spread
    return slope, spread**-0.5, mean_y - slope * mean_x


def style(axes, x, y, legend="best"):
    axes.set_xlabel(x)
    axes.set_ylabel(y)
    axes.spines[["top", "right"]].set_visible(False)
    axes.legend(frameon=False, fontsize=8, loc=legend)


def saved(figure, name):
    figure.tight_layout()
    figure.savefig(HERE / name, metadata={"Date": None})
    plot.close(figure)


def stiffness_picture(rows, slope, error, intercept):
    sizes = numpy.array([size for size, _, _ in rows], float)
    figure, axes = plot.subplots(figsize=(5, 3.4))
    axes.errorbar(
        sizes,
        [mean for _, mean, _ in rows],
        [bar for _, _, bar in rows],
        fmt="o",
        color="#222222",
        ms=4,
        capsize=3,
        label=f"{LOTS * COUNT} cylinders each",
    )
    axes.plot(
        sizes,
        numpy.exp(intercept) * sizes**slope,
        color="#0072B2",
        label=f"fit: slope {slope:.3f} ± {error:.3f}",
    )
    shift = rows[-1][1] / sizes[-1] ** LITERATURE
    axes.plot(
        sizes,
        shift * sizes**LITERATURE,
        "--",
        color="#D55E00",
        label=f"slope {LITERATURE}, of the literature",
    )
    axes.set_xscale("log")
    axes.set_yscale("log")
    axes.set_xticks(SIZES, [str(size) for size in SIZES])
    axes.set_yticks(HEIGHTS, [str(height) for height in HEIGHTS])
    axes.minorticks_off()
    style(axes, "length of the cylinder", "mean size of a wall energy")
    saved(figure, "stiffness.svg")


def codes():
    """For each size of the toric code and each error rate how often decoding fails, and the error bar; and the CPU
    time of a T-join in microseconds."""
    draws, begun = numpy.random.default_rng(103), time.process_time()
    rows = [
        (d, rate, *map(float, toric_code.failure_rate(d, rate, SHOTS, draws)))
        for d in toric_code.SIZES
        for rate in toric_code.RATES
    ]
    return {"rows": rows, "micros": 1e6 * (time.process_time() - begun) / (SHOTS * len(rows))}


def codes_picture(rows):
    figure, axes = plot.subplots(figsize=(5, 3.4))
    for d, colour in zip(toric_code.SIZES, ("#56B4E9", "#0072B2", "#009E73", "#D55E00")):
        own = [(rate, mean, bar) for size, rate, mean, bar in rows if size == d]
        x, y, bars = zip(*own)
        axes.errorbar(x, y, bars, fmt="o-", color=colour, ms=3, capsize=2, label=f"d = {d}")
    axes.axvline(THRESHOLD, linestyle="--", color="#222222", label=f"{THRESHOLD}, of the literature")
    style(axes, "probability of an error", "logical error rate")
    saved(figure, "codes.svg")


def times_picture(times):
    figure, axes = plot.subplots(figsize=(5, 3.4))
    looks = (("ising2d", "o-", "#0072B2"), ("networkx", "s--", "#D55E00"), ("scipy", "^:", "#009E73"))
    for name, look, colour in looks:
        own = [(row["size"], row[name]) for row in times if row.get(name) is not None]
        axes.plot(*zip(*own), look, color=colour, label=peers.NAMES[name], ms=4)
    axes.set_xscale("log")
    axes.set_yscale("log")
    sizes = [row["size"] for row in times]
    axes.set_xticks(sizes, [str(size) for size in sizes])
    axes.minorticks_off()
    style(axes, "length of the lattice", "processor seconds for a ground state", "center right")
    saved(figure, "times.svg")


def pictures():
    """The lattices, and what is said of them."""
    lattice = ising2d.draw("pm", 5, "square", 8, 8)
    found = lattice.ground()
    (HERE / "ground.svg").write_text(found.svg() + "\n")
    cylinder = ising2d.draw("uniform", 9, "cylinder", 12, 16)
    wall = cylinder.wall(states=True)
    (HERE / "wall.svg").write_text(wall.svg(cell=30) + "\n")
    rigid = ising2d.draw("pm", 2, "square", 20, 20).clusters()
    (HERE / "clusters.svg").write_text(rigid.svg(cell=26) + "\n")
    sizes = list(rigid.sizes.values())
    return {
        "energy": found.energy,
        "broken": len(found.broken()),
        "weights": sum(loop.weight for loop in found.loops),
        "sum": sum(abs(j) for j in lattice.couplings.tolist()),
        "difference": wall.difference,
        "length": wall.length,
        "clusters": len(sizes),
        "largest": sizes[0],
        "second": sizes[1],
    }


def shown(seconds):
    if seconds >= 1:
        return f"{seconds:.1f} s"
    return f"{1000 * seconds:.0f} ms" if seconds >= 0.1 else f"{1000 * seconds:.2g} ms"


def table(times):
    rows = ["| L | " + " | ".join(peers.NAMES.values()) + " |", "|---|" + "---|" * len(peers.NAMES)]
    for row in times:
        cells = (shown(row[name]) if row.get(name) is not None else "" for name in peers.NAMES)
        rows.append(f"| {row['size']} | " + " | ".join(cells) + " |")
    return "\n".join(rows)


def code_table(rows):
    """The failure rates, a row for every other error rate and a column for each size."""
    found = {(d, rate): f"{mean:.3f} ± {bar:.3f}" for d, rate, mean, bar in rows}
    lines = ["| p | " + " | ".join(f"d = {d}" for d in toric_code.SIZES) + " |", "|---|" + "---|" * len(toric_code.SIZES)]
    for rate in toric_code.RATES[::2]:
        cells = " | ".join(found[d, rate] for d in toric_code.SIZES)
        lines.append(f"| {rate} | {cells} |")
    return "\n".join(lines)


def large_walls():
    """For each long lattice its length, the mean size of a wall energy and its error bar; and the samples and
    the seconds."""
    rows, more = [], []
    for name, own in json.loads((HERE / "large-walls.json").read_text()).items():
        law, size = name.split()
        assert law == "uniform", law
        found = ising2d.Ensemble.of(own["walls"])
        rows.append((int(size), found.mean_size / 2**20, found.size_error / 2**20))
        more.append((len(own["walls"]), own["seconds"]))
    return rows, more


def cluster_sizes(spins, found):
    """For each range of sizes, from a power of two to the next, its middle, how many rigid clusters there are of each
    size in it for each spin, and the error bar."""
    return [
        ((4**k * (2 - 0.5**k)) ** 0.5, *(value / (spins * 2**k) for value in own))
        for k, own in enumerate(clusters.by_size(found))
    ]


def clusters_picture(rows, slope, error, intercept):
    figure, axes = plot.subplots(figsize=(5, 3.4))
    x, y, bars = (numpy.array(own) for own in zip(*(row for row in rows if row[1])))
    axes.errorbar(x, y, bars, fmt="o", color="#222222", ms=4, capsize=3, label="rigid clusters")
    axes.plot(x, numpy.exp(intercept) * x**slope, color="#0072B2", label=f"fit: slope {slope:.3f} ± {error:.3f}")
    axes.set_xscale("log")
    axes.set_yscale("log")
    style(axes, "size s", "clusters of size s for each spin")
    saved(figure, "cluster-sizes.svg")


def kept_clusters(name):
    """The length, the samples and the seconds that a file has, and the share of the largest cluster."""
    known = json.loads((HERE / name).read_text())
    assert known["law"] == "pm"
    length, found = known["length"], known["found"]
    share, bar = clusters.mean_of([own["largest"] / length**2 for own in found])
    return length, found, known["seconds"], f"{share:.3f} ± {bar:.3f}"


def large_clusters():
    """What the page says of the sizes of rigid clusters, whose picture is made."""
    length, found, seconds, share = kept_clusters("large-clusters.json")
    rows = cluster_sizes(length**2, found)
    least, most = FITTED_POWERS
    fit = fitted(rows[least:most])
    clusters_picture(rows, *fit)
    return {
        "cluster_length": length,
        "cluster_samples": len(found),
        "cluster_time": shown_minutes(seconds),
        "cluster_least": 2**least,
        "cluster_most": 2**most - 1,
        "cluster_tau": f"{-fit[0]:.2f} ± {fit[1]:.2f}",
        "cluster_share": share,
        **{f"cluster_share_{size}": kept_clusters(f"clusters-{size}.json")[3] for size in (50, 100)},
    }


def shown_minutes(seconds):
    return f"{seconds / 60:.0f} minutes" if seconds >= 150 else f"{seconds:.0f} s"


def kept(name, wanted, make):
    """What a file has, or makes anew and writes where that is wanted."""
    path = HERE / f"{name}.json"
    if wanted:
        path.write_text(json.dumps(make(), indent=1) + "\n")
    return json.loads(path.read_text())


def main():
    times = kept("times", "--times" in sys.argv, peers.measured)
    rows = kept("walls", "--walls" in sys.argv, stiffness)
    decoded = kept("codes", "--codes" in sys.argv, codes)
    said = pictures()
    slope, error, intercept = fitted([row for row in rows if row[0] >= LEAST_FITTED])
    stiffness_picture(rows, slope, error, intercept)
    times_picture(times)
    codes_picture(decoded["rows"])
    points = "\n".join(f"| {size} | {mean:.4f} ± {bar:.4f} |" for size, mean, bar in rows)
    said.update(points=points, slope=f"{slope:.3f}", error=f"{error:.3f}", least=LEAST_FITTED)
    said.update(samples=LOTS * COUNT, lots=LOTS, count=COUNT, times=table(times))
    said.update(shots=SHOTS, micros=f"{decoded['micros']:.0f}", codes=code_table(decoded["rows"]))
    large, more = large_walls()
    slope, error, _ = fitted([row for row in [*rows, *large] if row[0] >= LEAST_FITTED])
    said.update(large_slope=f"{slope:.3f}", large_error=f"{error:.3f}", large_most=large[-1][0])
    said.update(large_sizes=",".join(str(row[0]) for row in large), large_counts=",".join(str(count) for count, _ in more))
    said.update(large_clusters())
    said["large_points"] = "\n".join(
        f"| {size} | {count} | {mean:.4f} ± {bar:.4f} | {shown_minutes(seconds)} |"
        for (size, mean, bar), (count, seconds) in zip(large, more)
    )
    text = (HERE / "TOUR.in.md").read_text()
    for name, value in said.items():
        text = text.replace("{" + name + "}", str(value))
    (HERE.parent / "TOUR.md").write_text(text)


if __name__ == "__main__":
    main()
