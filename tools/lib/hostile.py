#!/usr/bin/env python3
"""What can happen to the built program, by accident or on purpose: memory that is refused, devices
that fail, inputs cut short or changed, forged proofs, inputs of the densest kinds. Outside the gate.

  tools/attack [PROGRAM] [--groups memory,space,devices,cut,changed,forged,drawn,peaks] [--count 1000]

PROGRAM is built/ising2d by default. A line for each case; the exit status is 0 where each
came out as it must. The groups `memory` and `space` need a C compiler.
"""
import argparse
import os
import pathlib
import pty
import subprocess
import sys
import tempfile

import model
import rules
import stopwatch
import trials

here = pathlib.Path(__file__).resolve().parent

SQUARE = "square,2,2\n3,4\n2,-5\nend\n"
RING = "cylinder,1,3\n5,7,2\nend\n"
BENT_RING = "cylinder,1,3\n5,7,-2\nend\n"
PROOF = SQUARE + "energy,-10\nspins,1,1,-1,-1\nloop,2,0,1,2,3\nloop,2,0,1,2,3\nend\n"
NO_MEMORY = 6

failures = 0


def say(group, case, good, what):
    global failures
    failures += not good
    print(f"{group:8} {'right' if good else 'WRONG':6} {case}: {what}", flush=True)


def run(words, text="", env=None, space=None):
    """The status, standard output and standard error of one run."""
    ran = stopwatch.run([program, *words], text, env, space)
    return ran.status, ran.out, ran.err


RUNS = [
    ("energy", ["energy"], SQUARE),
    ("ground", ["ground"], SQUARE),
    ("wall", ["wall"], RING),
    ("bonds", ["bonds"], BENT_RING),
    ("clusters", ["clusters"], BENT_RING),
    ("report", ["report"], BENT_RING),
    ("check", ["check"], PROOF),
    ("json", ["energy"], '{"kind":"square","rows":2,"cols":2,"couplings":[3,4,2,-5]}'),
    ("gen", ["gen", "uniform", "42", "square", "2", "2"], ""),
    ("sample", ["sample", "uniform", "42", "2", "2"], ""),
    ("ensemble", ["ensemble", "pm", "1", "2", "3", "2"], ""),
    ("tjoin", ["tjoin"], "graph,3\nedge,0,1,2\nedge,1,2,3\nedge,0,2,4\nterm,0,2\nend\n"),
    ("postman", ["postman"], "graph,3\nedge,0,1,2\nedge,1,2,3\nedge,0,2,4\nedge,0,2,1\nend\n"),
    ("ranges", ["ranges"], BENT_RING),
    ("maxcut", ["maxcut"], SQUARE),
]


def shim():
    made = tempfile.mkdtemp()
    library = os.path.join(made, "fail_alloc.so")
    subprocess.run(["cc", "-O2", "-shared", "-fPIC", "-o", library, str(here / "fail_alloc.c"), "-ldl"], check=True)
    return library


def memory():
    """Each request for memory refused in turn: the answer itself, or 6 with nothing written."""
    library = shim()
    for name, words, text in RUNS:
        wanted = run(words, text)[:2]
        requests = int(run(words, text, {"LD_PRELOAD": library, "COUNT_ALLOC": "1"})[2])
        wanting = answered = wrong = 0
        for number in range(1, requests + 1):
            status, out, err = run(words, text, {"LD_PRELOAD": library, "FAIL_ALLOC": str(number)})
            if (status, out, err) == (NO_MEMORY, "", ""):
                wanting += 1
            elif (status, out) == wanted and err == "":
                answered += 1
            else:
                wrong += 1
        say("memory", name, wrong == 0 and wanted[0] == 0 and requests > 0,
            f"{requests} requests; {wanting} refused ones end with 6, {answered} with the answer, {wrong} otherwise")


def space():
    """The address space lowered: the answer itself, or 6 with nothing written."""
    draw = model.generator(5)
    big = model.lattice("triangular", 45, 45, model.LAWS["drawn"](draw)).text
    for name, words, text in RUNS[:5] + [("ground at 2025 spins", ["ground"], big)]:
        wanted = run(words, text)[:2]
        counts = {"answered": 0, "wanting": 0, "not started": 0, "wrong": 0}
        limit = 40_000
        while limit > 1_000:
            status, out, err = run(words, text, space=1024 * limit)
            if (status, out, err) == (NO_MEMORY, "", ""):
                counts["wanting"] += 1
            elif (status, out) == wanted:
                counts["answered"] += 1
            elif status in (127, -11, -9) or "error while loading" in err:
                counts["not started"] += 1
            else:
                counts["wrong"] += 1
            limit -= 250
        say("space", name, counts["wrong"] == 0, ", ".join(f"{n} {c}" for c, n in counts.items()))


def devices():
    """Devices that fail: a full disk, a closed pipe, a directory, a terminal."""
    big = model.lattice("square", 45, 45, lambda k: 1).text.encode()
    with open("/dev/full", "w") as full:
        child = subprocess.run([program, "ground"], input=SQUARE.encode(), stdout=full, stderr=subprocess.PIPE)
    say("devices", "a full disk", child.returncode == 5 and child.stderr == b"", f"status {child.returncode}")
    out, into = os.pipe()
    os.close(out)
    child = subprocess.run([program, "ground"], input=big, stdout=into, stderr=subprocess.PIPE)
    os.close(into)
    say("devices", "a pipe that nobody reads", child.returncode == 5 and child.stderr == b"", f"status {child.returncode}")
    child = subprocess.run(["sh", "-c", f'exec "{program}" energy < /'], capture_output=True)
    say("devices", "a directory as input", child.returncode == 4 and child.stdout + child.stderr == b"", f"status {child.returncode}")
    child = subprocess.run(["sh", "-c", f'exec "{program}" energy <&-'], capture_output=True)
    say("devices", "no standard input", child.returncode == 4 and child.stdout + child.stderr == b"", f"status {child.returncode}")
    child = subprocess.run(["sh", "-c", f'exec "{program}" energy >&-'], input=SQUARE.encode(), stderr=subprocess.PIPE)
    say("devices", "no standard output", child.returncode == 5 and child.stderr == b"", f"status {child.returncode}")
    main_end, child_end = pty.openpty()
    child = subprocess.Popen([program, "energy"], stdin=child_end, stdout=subprocess.PIPE, stderr=subprocess.PIPE)
    os.close(child_end)
    os.write(main_end, SQUARE.encode() + b"\x04")
    printed, told = child.communicate(timeout=10)
    os.close(main_end)
    say("devices", "a terminal as input", child.returncode == 0 and printed.startswith(b"energy,-10\n") and told == b"",
        f"status {child.returncode}")


INPUTS = [
    ("square", "energy", SQUARE),
    ("triangular", "energy", "triangular,2,2\n-1,2,-1,3\n-1\nend\n"),
    ("hexagonal", "energy", "hexagonal,2,3\n4,5,6,7\n3,-8\nend\n"),
    ("cylinder", "energy", "cylinder,1,3\n5,7,-2\nseam,0\nend\n"),
    ("general", "energy", "general,3\nbond,0,1,-1\nbond,1,2,-1\nbond,2,0,-1\nrot,0,0,5\nrot,1,1,2\nrot,2,3,4\nend\n"),
    ("a proof", "check", PROOF),
]


def agrees(command, text):
    """Whether the program answers what the rules say; of an accepted `energy` also whether the spins have it."""
    wanted, read = rules.answer(command, text)
    with tempfile.TemporaryFile() as source:
        source.write(text)
        status, out, err = run([command], source)
    lines = out.splitlines()
    if err or not lines or lines[0] != wanted or status != (3 if wanted[:3] == "no," else wanted[:7] == "refused"):
        return False
    if read is None:
        return len(lines) == 1
    n, bonds, _, _ = read
    instance = model.Instance("", n, bonds)
    spins = model.result(out).spins
    return len(spins) == n and f"energy,{instance.energy(spins)}" == wanted


def cut():
    """Each input cut at each byte."""
    for name, command, text in INPUTS:
        text = text.encode()
        wrong = [k for k in range(len(text) + 1) if not agrees(command, text[:k])]
        say("cut", name, not wrong, f"{len(text) + 1} prefixes, wrong at {wrong}")


def changed():
    """Each input with each byte in the place of each of its own."""
    telling = b'",#\n\r\t +-.0123456789abdegnrst{}\x00\xef\xff'
    for name, command, text in INPUTS:
        text = text.encode()
        wrong = [(k, byte) for k in range(len(text)) for byte in telling
                 if not agrees(command, text[:k] + bytes([byte]) + text[k + 1:])]
        say("changed", name, not wrong, f"{len(text) * len(telling)} texts, wrong at {wrong[:5]}")


def with_one_change(draw, instance, stated):
    """The instance and the result with one thing changed."""
    kind = draw.choice(["weight", "bond", "again", "spin", "energy", "coupling", "dropped"])
    bonds, spins, loops, energy = list(instance.bonds), list(stated.spins), [(y, list(b)) for y, b in stated.loops], stated.energy
    at = draw.randrange(len(loops)) if loops else None
    if kind == "weight" and loops:
        loops[at] = (loops[at][0] + draw.choice([-1, 1]), loops[at][1])
    elif kind == "bond" and loops:
        loops[at][1][draw.randrange(len(loops[at][1]))] = draw.randrange(len(bonds))
    elif kind == "again" and loops:
        loops.append(loops[at])
    elif kind == "dropped" and loops:
        del loops[at]
    elif kind == "spin":
        place = draw.randrange(len(spins))
        spins[place] = -spins[place]
    elif kind == "energy":
        energy += draw.choice([-2, -1, 1, 2])
    elif bonds:
        place = draw.randrange(len(bonds))
        u, v, j = bonds[place]
        bonds[place] = (u, v, j + draw.choice([-1, 1]))
    return bonds, model.Result(energy, spins, loops)


def with_couplings(instance, bonds):
    head = instance.text.splitlines()[0]
    line = ",".join(str(j) for _, _, j in bonds) + "\n" if bonds else ""
    return model.Instance(f"{head}\n{line}end\n", instance.n, bonds)


def forged():
    """True proofs with one thing changed: yes exactly where what came of it is a proof."""
    draw = model.generator(11)
    accepted = refused = wrong = 0
    while accepted + refused + wrong < said.count:
        instance = model.drawn(draw, 6)
        printed = run(["ground"], instance.text)[1]
        bonds, stated = with_one_change(draw, instance, model.result(printed))
        other = with_couplings(instance, bonds)
        status, out, _ = run(["check"], other.text + stated.text())
        is_proof = model.proves(other, stated)
        if (status, out) == (0, "yes\n") and is_proof:
            accepted += 1
        elif status == 3 and out.startswith("no,") and not is_proof:
            refused += 1
        else:
            wrong += 1
    say("forged", f"{said.count} proofs with one thing changed", wrong == 0,
        f"{refused} refused, {accepted} still proofs and accepted, {wrong} wrong")


def drawn():
    """Drawn instances: what `ground` prints is a proof, by plain arithmetic and by `check`."""
    draw = model.generator(12)
    wrong, largest = 0, 0
    for number in range(said.count):
        instance = model.drawn(draw, 45 if number % 50 == 0 else 8)
        largest = max(largest, instance.n)
        wrong += trials.fault(program, instance, few=0) is not None
    say("drawn", f"{said.count} instances, the largest of {largest} spins", wrong == 0, f"{wrong} wrong")


def peaks():
    """Peak memory of the densest inputs: a head, a piece as often as there is room for it, and a tail."""
    head, ends = "square,2,2\n", "\nend\n"
    result = SQUARE + "energy,-10\nspins,1,1,-1,-1\n"
    bonds = ",".join(str(b) for b in range(3072))
    cases = [
        ("one record of commas", ["energy"], head, ",", ends, 1),
        ("records of one field", ["energy"], head, "1\n", "end\n", 1),
        ("records of no number", ["energy"], head, "x\n", "end\n", 1),
        ("couplings in one record", ["energy"], head, "1,", "1\nend\n", 1),
        ("comments", ["energy"], head, "#\n", "3,4,2,-5\nend\n", 0),
        ("a field of quotes", ["energy"], head, '""', ends, 1),
        ("edges", ["tjoin"], "graph,2\n", "edge,0,1,1\n", "end\n", 1),
        ("terminals", ["tjoin"], "graph,2\nterm", ",1", ends, 1),
        ("JSON couplings", ["energy"], '{"kind":"square","rows":2,"cols":2,"couplings":[', "1,", "1]}", 1),
        ("JSON lists", ["energy"], '{"kind":"square","rows":2,"cols":2,"couplings":[', "[],", "1]}", 1),
        ("loops", ["check"], result, "loop,1,0,1,2,3\n", "end\n", 3),
        ("loops of 3072 bonds", ["check"], result, f"loop,1,{bonds}\n", "end\n", 3),
        ("spins", ["check"], SQUARE + "energy,-10\nspins", ",1", ends, 3),
    ]
    for name, words, head, piece, tail, wanted in cases:
        size = (63 if "JSON" in name else said.megabytes) << 20
        times = (1 << 20) // len(piece) or 1
        with tempfile.TemporaryFile() as source:
            source.write(head.encode())
            while source.tell() < size:
                source.write((piece * times).encode())
            source.write(tail.encode())
            length = source.tell()
            ran = stopwatch.run([program, *words], source)
        say("peaks", name, ran.err == "" and ran.status == wanted,
            f"{length >> 20} MiB, status {ran.status} {ran.out[:40]!r}, peak {ran.peak >> 20} MiB, {ran.peak / length:.1f} times the input")


ask = argparse.ArgumentParser()
ask.add_argument("program", nargs="?", default=str(stopwatch.PROGRAM))
ask.add_argument("--groups", default="memory,space,devices,cut,changed,forged,drawn,peaks")
ask.add_argument("--count", type=int, default=1000)
ask.add_argument("--megabytes", type=int, default=400)
said = ask.parse_args()
program = os.path.abspath(said.program)
for group in said.groups.split(","):
    {"memory": memory, "space": space, "devices": devices, "cut": cut, "changed": changed, "forged": forged,
     "drawn": drawn, "peaks": peaks}[group]()
sys.exit(1 if failures else 0)
