"""The stiffness exponent: how the size of a domain wall's energy scales with the length of the lattice.

    python3 stiffness.py [--law gaussian] [--sizes 8,16,32,64,128,256] [--samples 100] [--save walls.json]

draws so many cylinders of each length, by threads on all processors, prints the mean size of a wall energy
with its error bar and the time it took, and fits a line through the logarithms, each point weighed by its
error bar. `--samples` may have a number for each length. With `--save` the walls are kept in a file: a run
that is stopped, by Ctrl-C say, goes on from there, and one with more samples adds to it.
"""

import argparse
import json
import math
import pathlib
import time

import ising2d

# What one is of each law, in the unit of the couplings.
UNITS = {"gaussian": 2**20, "uniform": 2**20, "pm": 1}


def kept(path):
    """The walls of each law and length, and the seconds that they took."""
    return json.loads(path.read_text()) if path and path.exists() else {}


def solved(law, size, samples, known):
    """The ensemble after what is known of it, the whole of it or as far as it came."""
    after = ising2d.Ensemble.of(known.get("walls", []))
    try:
        return ising2d.ensemble(law, size, size, size, samples, after=after), False
    except ising2d.Stopped as stopped:
        return stopped.found, True


def fit(rows):
    """The slope of the logarithms, and its error."""
    points = [(math.log(size), math.log(mean), (mean / error) ** 2) for size, mean, error in rows]
    whole = sum(weight for _, _, weight in points)
    x, y = (sum(point[2] * point[k] for point in points) / whole for k in (0, 1))
    spread = sum(weight * (a - x) ** 2 for a, _, weight in points)
    return sum(weight * (a - x) * (b - y) for a, b, weight in points) / spread, spread**-0.5


def main():
    ask = argparse.ArgumentParser(description=__doc__.splitlines()[0])
    ask.add_argument("--law", default="gaussian", choices=UNITS)
    ask.add_argument("--sizes", default="8,16,32,64,128,256")
    ask.add_argument("--samples", default="100")
    ask.add_argument("--save", type=pathlib.Path)
    said = ask.parse_args()
    sizes, samples = [int(word) for word in said.sizes.split(",")], [int(word) for word in said.samples.split(",")]
    samples = samples if len(samples) == len(sizes) else samples[:1] * len(sizes)
    rows, known = [], kept(said.save)
    print("length  samples  mean size of a wall energy  seconds", flush=True)
    for size, count in zip(sizes, samples):
        name, begun = f"{said.law} {size}", time.monotonic()
        before = known.get(name, {})
        found, is_stopped = solved(said.law, size, count, before)
        seconds = before.get("seconds", 0.0) + time.monotonic() - begun
        known[name] = {"walls": [int(wall) for wall in found.walls], "seconds": round(seconds, 1)}
        if said.save:
            said.save.write_text(json.dumps(known))
        if len(found.walls) > 1 and found.mean_size:
            mean, error = found.mean_size / UNITS[said.law], found.size_error / UNITS[said.law]
            rows.append((size, mean, error))
            print(f"{size:6}  {len(found.walls):7}  {mean:16.4f} +- {error:.4f}  {seconds:7.1f}", flush=True)
        if is_stopped:
            break
    if len(rows) > 2:
        slope, error = fit(rows)
        print(f"slope of the logarithms: {slope:.3f} +- {error:.3f}")


if __name__ == "__main__":
    main()
