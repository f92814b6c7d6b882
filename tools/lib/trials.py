#!/usr/bin/env python3
"""Many small instances of all kinds and laws, each solved by the built program: its energy beside the
least over all assignments where there are few spins, and its proof judged by `check` and by plain
arithmetic in another language; or as many weighted graphs, whose joins are put beside the least over
all joins, and whose cuts are judged by plain arithmetic. Outside the gate.

  tools/attack trials [PROGRAM] [--joins | --costs] [--count 100000] [--seed 1] [--few 12] [--most 40]

PROGRAM is built/ising2d by default. One in four instances has up to MOST spins or nodes, and
the others have up to FEW, so that all their assignments or joins can be tried. With --costs each
instance has up to FEW spins, and what `bonds` and `clusters` answer is put beside all its assignments.
A line for each wrong answer and for each kind at the end; the exit status is 0 where nothing was wrong.
"""
import argparse
import collections
import sys

import model
import stopwatch


def lattice(draw, kind, most, couplings):
    """A lattice of at most so many spins; every third one is a single row or column where it may be."""
    least = {"hexagonal": 2, "cylinder": 3}.get(kind, 1)
    cols = draw.randint(least, most) if draw.random() < 0.3 else draw.randint(least, max(least, int(most ** 0.5) + 1))
    rows = draw.randint(1, max(1, most // cols))
    if kind in ("square", "triangular") and draw.random() < 0.5:
        rows, cols = cols, rows
    return model.lattice(kind, rows, cols, couplings)


def drawn(draw, most):
    kind = draw.choice(["square", "triangular", "hexagonal", "cylinder", "general"])
    law = draw.choice(list(model.LAWS))
    couplings = model.LAWS[law](draw)
    if kind == "general":
        return kind, law, model.general(draw, most, couplings)
    return kind, law, lattice(draw, kind, most, couplings)


def run(program, word, text):
    ran = stopwatch.run([program, word], text)
    return ran.status, ran.out


def fault(program, instance, few):
    """What is wrong with the answer of `ground`, or None."""
    ran = stopwatch.run([program, "ground"], instance.text)
    if ran.status != 0 or ran.err:
        return f"status {ran.status}: {ran.out.strip()}{ran.err}"
    stated = model.result(ran.out)
    if not model.proves(instance, stated):
        return "the loops do not prove the energy"
    if stated.spins[0] != 1 or 2 * len(stated.loops) > 5 * len(instance.bonds):
        return "the first spin is not 1, or there are too many loops"
    if instance.n <= few and stated.energy != model.least_energy(instance):
        return f"energy {stated.energy} is not the least, {model.least_energy(instance)}"
    status, verdict = run(program, "check", instance.text + ran.out)
    if (status, verdict) != (0, "yes\n"):
        return f"check says {verdict.strip()} with status {status}"
    return None


def cost_fault(program, instance):
    """What is wrong with the costs or the clusters, or None."""
    costs = model.bond_costs(instance)
    names = model.rigid_clusters(instance, costs)
    bonds = [f"cost,{k},{cost},{'rigid' if cost > 0 else 'loose'}" for k, cost in enumerate(costs)]
    clusters = [f"cluster,{spin},{name}" for spin, name in enumerate(names)]
    for word, lines in (("bonds", bonds), ("clusters", clusters)):
        status, text = run(program, word, instance.text)
        if status != 0 or text.splitlines() != lines + ["end"]:
            return f"{word} ends with status {status} and says {text.split()}, where all assignments say {lines}"
    return None


def join_fault(program, web, few):
    """What is wrong with the answer, or None."""
    status, text = run(program, "tjoin", web.text)
    if status != 0:
        return f"status {status}: {text.strip()}"
    is_proved, weight = model.proves_join(web, text)
    if not is_proved:
        return "the cuts do not prove the weight"
    if web.n <= few and weight != model.least_join(web):
        return f"weight {weight} is not the least, {model.least_join(web)}"
    return None


def drawn_web(draw, most):
    law = draw.choice(list(model.WEIGHTS))
    return law, model.web(draw, most, model.WEIGHTS[law](draw))


def main():
    ask = argparse.ArgumentParser()
    ask.add_argument("program", nargs="?", default=str(stopwatch.PROGRAM))
    ask.add_argument("--joins", action="store_true")
    ask.add_argument("--count", type=int, default=100000)
    ask.add_argument("--seed", type=int, default=1)
    ask.add_argument("--few", type=int, default=12)
    ask.add_argument("--most", type=int, default=40)
    ask.add_argument("--costs", action="store_true")
    said = ask.parse_args()
    draw = model.generator(said.seed)
    tried, tested, wrong = collections.Counter(), 0, 0
    for trial in range(said.count):
        most = said.most if trial % 4 == 3 and not said.costs else said.few
        if said.joins:
            kind, (law, instance) = "graph", drawn_web(draw, most)
            found = join_fault(said.program, instance, said.few)
        else:
            kind, law, instance = drawn(draw, most)
            found = cost_fault(said.program, instance) if said.costs else fault(said.program, instance, said.few)
        tried[kind] += 1
        tested += instance.n <= said.few
        if found is not None:
            wrong += 1
            print(f"WRONG at trial {trial}, {kind}, {law}: {found}\n{instance.text}", flush=True)
    for kind, count in sorted(tried.items()):
        print(f"{kind:10} {count}")
    print(f"{said.count} instances, {tested} beside all their {'joins' if said.joins else 'assignments'}, {wrong} wrong")
    return 1 if wrong else 0


if __name__ == "__main__":
    sys.exit(main())
