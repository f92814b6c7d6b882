"""Instances of several components, through every command. The numbers were worked by hand, component by component."""
import rows

# Two pairs of spins with a bond each.
PAIRS = "general,4\nbond,0,1,2\nbond,2,3,-5\nrot,0,0\nrot,1,1\nrot,2,2\nrot,3,3\nend\n"

# The same, where the second bond is the seam.
SEAM_PAIRS = "general,4\nbond,0,1,2\nbond,2,3,-5\nrot,0,0\nrot,1,1\nrot,2,2\nrot,3,3\nseam,1\nend\n"

# Three spins without a bond.
BARE = "general,3\nend\n"

# A triangle within a triangle: the spins 0, 2 and 4 outside, and 1, 3 and 5 inside. The outer one is frustrated; its
# last bond is the seam.
NESTED = "general,6\nbond,0,2,3\nbond,2,4,-5\nbond,4,0,2\nbond,1,3,-7\nbond,3,5,1\nbond,5,1,-4\nrot,0,0,5\nrot,1,6,11\nrot,2,1,2\nrot,3,7,8\nrot,4,3,4\nrot,5,9,10\nseam,2\nend\n"

# Three bonds between two spins, drawn on a torus, beside a path of three spins.
TORUS_BESIDE_TREE = "general,5\nbond,0,1,3\nbond,0,1,-2\nbond,0,1,1\nbond,2,3,1\nbond,3,4,-1\nrot,0,0,2,4\nrot,1,1,3,5\nrot,2,6\nrot,3,7,8\nrot,4,9\nseam,3\nend\n"

ANSWERS = [
    ("energy", "general,2\nend\n", "energy,0\nspins,1,1\nend\n"),
    ("energy", PAIRS, "energy,-7\nspins,1,1,1,-1\nend\n"),
    ("energy", BARE, "energy,0\nspins,1,1,1\nend\n"),
    ("energy", NESTED, "energy,-18\nspins,1,1,1,-1,-1,-1\nend\n"),
    ("energy", "general,3\nbond,0,1,7\nrot,0,0\nrot,1,1\nend\n", "energy,-7\nspins,1,1,1\nend\n"),
    ("ground", PAIRS, "energy,-7\nspins,1,1,1,-1\nend\n"),
    ("ground", BARE, "energy,0\nspins,1,1,1\nend\n"),
    ("wall", SEAM_PAIRS, "periodic,-7\nantiperiodic,-7\nwall,0\nend\n"),
    ("wall", NESTED, "periodic,-18\nantiperiodic,-22\nwall,-4\nend\n"),
    ("bonds", PAIRS, "cost,0,4,rigid\ncost,1,10,rigid\nend\n"),
    ("bonds", BARE, "end\n"),
    (
        "bonds",
        NESTED,
        "cost,0,2,rigid\ncost,1,6,rigid\ncost,2,2,rigid\ncost,3,16,rigid\ncost,4,10,rigid\ncost,5,10,rigid\nend\n",
    ),
    ("clusters", PAIRS, "cluster,0,0\ncluster,1,0\ncluster,2,2\ncluster,3,2\nend\n"),
    ("clusters", BARE, "cluster,0,0\ncluster,1,1\ncluster,2,2\nend\n"),
    ("clusters", NESTED, "cluster,0,0\ncluster,1,1\ncluster,2,0\ncluster,3,1\ncluster,4,0\ncluster,5,1\nend\n"),
    (
        "report",
        SEAM_PAIRS,
        '{"bonds":2,"clusters":[0,0,2,2],"costs":[4,10],"energy":-7,"loops":[],"spins":[1,1,1,-1],"sum":7,"wall":{"antiperiodic":-7,"difference":0,"periodic":-7}}\n',
    ),
    (
        "report",
        BARE,
        '{"bonds":0,"clusters":[0,1,2],"costs":[],"energy":0,"loops":[],"spins":[1,1,1],"sum":0,"wall":null}\n',
    ),
]

COMMANDS = ["energy", "ground", "wall", "bonds", "clusters", "report"]

TORI = [
    ("general,3\nbond,0,1,3\nbond,0,1,-2\nbond,0,1,1\nrot,0,0,2,4\nrot,1,1,3,5\nend\n", "refused,15,0\n"),
    (
        "# two drawings on tori\ngeneral,4\nbond,0,2,3\nbond,0,2,-2\nbond,0,2,1\nbond,1,3,1\nbond,1,3,1\nbond,1,3,1\nrot,0,0,2,4\nrot,1,6,8,10\nrot,2,1,3,5\nrot,3,7,9,11\nend\n",
        "refused,15,-2\n",
    ),
]

PROVED = [
    (
        "general,3\nbond,0,1,3\nbond,0,1,-2\nbond,0,1,1\nrot,0,0,2,4\nrot,1,1,5,3\nend\n",
        "energy,-2\nspins,1,1,1\nloop,",
    ),
    (NESTED, "energy,-18\nspins,1,1,1,-1,-1,-1\nloop,"),
    (
        "general,6\nbond,0,1,-1\nbond,1,2,-1\nbond,2,0,-1\nbond,3,4,-1\nbond,4,5,-1\nbond,5,3,-1\nrot,0,0,5\nrot,1,1,2\nrot,2,3,4\nrot,3,6,11\nrot,4,7,8\nrot,5,9,10\nend\n",
        "energy,-2\nspins,1,",
    ),
    (
        "# three bonds between the spins 1 and 3, and between 0 and 2\ngeneral,4\nbond,1,3,3\nbond,0,2,-4\nbond,1,3,-2\nbond,0,2,1\nbond,1,3,1\nbond,0,2,1\nrot,0,2,6,10\nrot,1,0,4,8\nrot,2,3,11,7\nrot,3,1,9,5\nend\n",
        "energy,-4\nspins,1,1,-1,1\nloop,",
    ),
]

# Of 1024 pairs, and of 24.
THOUSAND = [
    ("energy", "energy,-1024\nspins,1,1,1,-1,1,1,1,-1,"),
    ("wall", "periodic,-1024\nantiperiodic,-1024\nwall,0\nend\n"),
]

COSTS = [
    ("bonds", "cost,0,2,rigid\ncost,1,2,rigid\ncost,2,2,rigid\n"),
    ("clusters", "cluster,0,0\ncluster,1,0\ncluster,2,2\ncluster,3,2\n"),
    ("report", '{"bonds":24,"clusters":[0,0,2,2,4,4,'),
]


def pairs(count):
    """So many pairs of spins with a bond each, with couplings 1 and -1 in turn; the first bond is the seam."""
    bonds = [f"bond,{2 * pair},{2 * pair + 1},{-1 if pair % 2 else 1}\n" for pair in range(count)]
    # The one dart of a spin has its number.
    darts = [f"rot,{spin},{spin}\n" for spin in range(2 * count)]
    return "".join([f"general,{2 * count}\n", *bonds, *darts, "seam,0\nend\n"])


def cases():
    yield from rows.lines_answered(ANSWERS, rows.DONE)
    yield rows.answered("wall", BARE, rows.REFUSED, "refused,16\n")
    for command in COMMANDS:
        yield rows.answered(command, TORUS_BESIDE_TREE, rows.REFUSED, "refused,15,0\n")
    yield from rows.answered_each(TORI, "energy", rows.REFUSED)
    for given, front in PROVED:
        yield rows.proved(given, front)
    for command, front in THOUSAND:
        yield rows.begun(command, pairs(1024), front)
    yield rows.proved(pairs(1024), "energy,-1024\nspins,1,1,1,-1,")
    for command, front in COSTS:
        yield rows.begun(command, pairs(24), front)
