"""Ten lots of a study over Python's executors: the least energies of a hundred drawn square lattices of
24 by 24 each. What is done is kept in a file, a line for each lot, so that a run that was broken off goes
on where it stopped."""

import json
from pathlib import Path

SEEDS, LOTS = 100, 10


def lot_of(lot):
    """The energies of a lot. It is all that a worker does; the package must be there for it."""
    import ising2d

    first = SEEDS * lot + 1
    return lot, [ising2d.sample("pm", seed, 24, 24).energy for seed in range(first, first + SEEDS)]


def kept_in(path):
    """The energies of the lots that are done. The last line may have been broken off."""
    done = {}
    for line in path.read_text().splitlines() if path.exists() else []:
        try:
            lot, energies = json.loads(line)
        except ValueError:
            continue
        if len(energies) == SEEDS:
            done[lot] = energies
    return done


def study(spread, path):
    """Does the missing lots: ``spread`` has a function and items, and gives results as they come."""
    path = Path(path)
    done = kept_in(path)
    missing = [lot for lot in range(LOTS) if lot not in done]
    print(f"{len(done)} lots are done, {len(missing)} are missing")
    with path.open("a") as file:
        # The line that was broken off, if there is one, ends here.
        file.write("\n" if file.tell() else "")
        for lot, energies in spread(lot_of, missing):
            done[lot] = energies
            file.write(json.dumps([lot, energies]) + "\n")
            file.flush()
    print(*sums(done))


def sums(done):
    """The number of samples, the mean energy per spin, and its error bar."""
    energies = [energy for lot in sorted(done) for energy in done[lot]]
    count, mean = len(energies), sum(energies) / len(energies)
    variance = sum(energy * energy for energy in energies) / count - mean * mean
    return count, f"{mean / 576:.6g}", f"{(variance / (count - 1)) ** 0.5 / 576:.6g}"
