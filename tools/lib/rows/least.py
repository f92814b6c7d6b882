"""The energies of `ground` beside the least over all assignments, on worked instances and on small ones with drawn
couplings; and larger ones, of which `check` judges the proof alone."""
import random

import model
import rows
import rules
from rows.changed import written

# Instances that are worked by hand, or that are the least of their kind.
WORKED = [
    "square,1,1\nend\n",
    "square,2,2\n3,4\n2,-5\nend\n",
    "triangular,2,2\n-1,-1,-1,-1,-1\nend\n",
    "hexagonal,2,3\n4,5,6,7\n3,-8\nend\n",
    "general,2\nbond,0,1,3\nbond,0,1,-2\nbond,0,1,1\nrot,0,0,2,4\nrot,1,1,5,3\nend\n",
    "general,2\nbond,0,1,3\nbond,0,1,-2\nbond,0,1,3\nbond,0,1,-7\nrot,0,0,2,4,6\nrot,1,1,7,5,3\nend\n",
    "square,1,2\n17592186044416\nend\n",
    "general,4\nbond,0,1,2\nbond,1,2,-3\nbond,1,3,4\nrot,0,0\nrot,1,1,2,4\nrot,2,3\nrot,3,5\nend\n",
    "general,7\nbond,0,1,1\nbond,0,2,1\nbond,0,3,1\nbond,0,4,1\nbond,0,5,1\nbond,0,6,1\nbond,1,2,-1\nbond,2,3,-1\nbond,3,4,-1\nbond,4,5,-1\nbond,5,6,-1\nbond,6,1,-1\nrot,0,0,2,4,6,8,10\nrot,1,1,23,12\nrot,2,3,13,14\nrot,3,5,15,16\nrot,4,7,17,18\nrot,5,9,19,20\nrot,6,11,21,22\nend\n",
    "square,4,4\n1,1,1,1,-1,1,1,1,1,1,1,1,1,1,1,1,1,1,1,1,1,1,1,1\nend\n",
    "cylinder,1,3\n5,7,-2\nend\n",
    "general,3\nend\n",
    "general,4\nbond,0,1,2\nbond,2,3,-5\nrot,0,0\nrot,1,1\nrot,2,2\nrot,3,3\nend\n",
    "general,6\nbond,0,2,3\nbond,2,4,-5\nbond,4,0,2\nbond,1,3,-7\nbond,3,5,1\nbond,5,1,4\nrot,0,0,5\nrot,1,6,11\nrot,2,1,2\nrot,3,7,8\nrot,4,3,4\nrot,5,9,10\nend\n",
]

# Lattices of at most twelve spins.
SMALL = [
    ("square", 1, 12),
    ("square", 2, 6),
    ("square", 3, 4),
    ("triangular", 2, 6),
    ("triangular", 3, 4),
    ("hexagonal", 2, 6),
    ("hexagonal", 3, 4),
    ("cylinder", 1, 9),
    ("cylinder", 2, 5),
    ("cylinder", 3, 4),
]

# Couplings of one size, of one size or none, of few sizes with zeros, -1 alone, and of many sizes.
LAWS = [
    lambda draw: draw.choice([1, -1]),
    lambda draw: draw.randint(-1, 1),
    lambda draw: draw.randint(-4, 4),
    lambda draw: -1,
    lambda draw: draw.randrange(-(2**31), 2**31),
]
ROUNDS = 4

# Large lattices, and a cylinder whose two outer faces are hubs, each with its laws.
LARGE = [
    ("square", 32, 32, [LAWS[0], LAWS[4]]),
    ("triangular", 24, 24, [LAWS[0], LAWS[4]]),
    ("cylinder", 3, 141, [LAWS[0], LAWS[3]]),
]

# The side of each of two squares that nothing joins.
SIDE = 12


def read(given):
    """The instance of a text, as the rules read it."""
    n, bonds, _, _ = rules.instance(rules.kept(given.encode()))
    return model.Instance(given, n, bonds)


def lattice(draw, shape, law):
    return model.lattice(*shape, lambda _: law(draw))


def triangles(draw, law):
    """Four triangles, whose spins alternate."""
    bonds = [(ring + 4 * side, ring + 4 * (side + 1) % 12, law(draw)) for ring in range(4) for side in range(3)]
    rotation = [[6 * ring + 2 * side, 6 * ring + (2 * side + 5) % 6] for side in range(3) for ring in range(4)]
    return read(written(12, bonds, rotation, []))


def least(given):
    """A row: the least energy over all assignments, and its proof."""
    return rows.proved(given.text, f"energy,{model.least_energy(given)}\n")


def energy_of(run, given):
    return int(run("ground", given.text.encode())[1].split(b"\n")[0].removeprefix(b"energy,"))


def squares(draw):
    """A row: of two squares that nothing joins, the energy is that of each, and is proved."""
    alone = [lattice(draw, ("square", SIDE, SIDE), LAWS[0]) for _ in range(2)]
    _, rotation, _ = rules.lattice(b"square", SIDE, SIDE)
    spins, bonds = SIDE * SIDE, len(alone[0].bonds)
    both = written(
        2 * spins,
        alone[0].bonds + [(u + spins, v + spins, j) for u, v, j in alone[1].bonds],
        rotation + [[dart + 2 * bonds for dart in darts] for darts in rotation],
        [],
    )

    def test(run):
        seen = run("ground", both.encode())
        good = rows.is_begun(seen, f"energy,{sum(energy_of(run, given) for given in alone)}\n")
        return rows.judged(run, both, seen[1]) if good else seen
    return rows.named("ground", both), test


def cases():
    draw = random.Random(42)
    for given in WORKED:
        yield least(read(given))
    for shape in SMALL:
        for law in ROUNDS * LAWS:
            yield least(lattice(draw, shape, law))
    for law in ROUNDS * LAWS:
        yield least(triangles(draw, law))
    for *shape, laws in LARGE:
        for law in laws:
            yield rows.proved(lattice(draw, shape, law).text, "energy,-")
    yield squares(draw)
