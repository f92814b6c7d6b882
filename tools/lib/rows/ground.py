"""Ground states with their proof: `check` judges what `ground` prints, behind the instance that it belongs to."""
import rows

WORKED = [
    ("square,1,1\nend\n", "energy,0\nspins,1\nend\n"),
    ("square,1,2\n-3\nend\n", "energy,-3\nspins,1,-1\nend\n"),
    ("square,2,2\n3,4\n2,-5\nend\n", "energy,-10\nspins,1,1,-1,-1\nloop,"),
    (
        "square,2,2\n3000000000,4000000000\n2000000000,-5000000000\nend\n",
        "energy,-10000000000\nspins,1,1,-1,-1\nloop,",
    ),
    ("triangular,2,2\n-1,-1,-1,-1,-1\nend\n", "energy,-3\nspins,1,"),
    ("hexagonal,2,3\n4,5,6,7\n3,-8\nend\n", "energy,-27\nspins,1,1,1,-1,-1,-1\nloop,"),
    ("cylinder,1,3\n1,1,-1\nend\n", "energy,-1\nspins,1,"),
    (
        "general,2\nbond,0,1,3\nbond,0,1,-2\nbond,0,1,1\nrot,0,0,2,4\nrot,1,1,5,3\nend\n",
        "energy,-2\nspins,1,1\nloop,",
    ),
    (
        "general,2\nbond,0,1,3\nbond,0,1,-2\nbond,0,1,3\nbond,0,1,-7\nrot,0,0,2,4,6\nrot,1,1,7,5,3\nend\n",
        "energy,-3\nspins,1,-1\nloop,",
    ),
    (
        "square,4,4\n1,1,1,1,-1,1,1,1,1,1,1,1,1,1,1,1,1,1,1,1,1,1,1,1\nend\n",
        "energy,-22\nspins,1,1,1,1,1,1,1,1,1,1,1,1,1,1,1,1\nloop,",
    ),
    ("square,1,2\n1099511627777\nend\n", "energy,-1099511627777\nspins,1,1\nend\n"),
]

# The head of a lattice, the line of each bond, the number of its bonds, and the front of the text.
LARGE = [
    ("square,32,32\n", "1\n", 1984, "energy,-1984\nspins,1,1,1,"),
    ("square,1,1024\n", "-1\n", 1023, "energy,-1023\nspins,1,-1,1,"),
]


def uniform(head, coupling, bonds):
    """A lattice whose couplings are all the same."""
    return head + bonds * coupling + "end\n"


def cases():
    for given, front in WORKED:
        yield rows.proved(given, front)
    for head, coupling, bonds, front in LARGE:
        yield rows.proved(uniform(head, coupling, bonds), front)
