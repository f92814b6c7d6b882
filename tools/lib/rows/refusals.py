"""Inputs that are refused, with the line of their first fault."""
import rows

LATTICES = [
    ("square,1,2\n17592186044417\nend\n", "refused,13,17592186044417\n"),
    ("square,2,2\n3,4,2\nend\n", "refused,6,3,4\n"),
    ("square,2,2\n3,4,2\n", "refused,2\n"),
    ("", "refused,2\n"),
    ("cube,2,2\nend\n", "refused,4,0\n"),
    ("square,2\nend\n", "refused,5,0\n"),
    ("square,2,x\nend\n", "refused,3,0,2\n"),
    ("square,33,32\nend\n", "refused,6,0,2047\n"),
    ("square,2049,1\nend\n", "refused,7,2049\n"),
    ("square,2,2\n3,4\n2,-5\nseam,4\nend\n", "refused,11,4\n"),
    ("square,1,1\nend\nx\n", "refused,12,2\n"),
    ("square,2,2\n3,4\n2,-5\nseam,0,0\nend\n", "refused,11,0\n"),
    ("square,1,2\n1\nseam\nseam\nend\n", "refused,5,3\n"),
    ("cylinder,1,2\n1,1\nend\n", "refused,3,0,2\n"),
    ("square,1,2\n-9223372036854775808\nend\n", "refused,3,1,0\n"),
]

# A text without a coupling is refused with the number of bonds that it needs.
SIZES = [
    ("square,1,3\nend\n", "refused,6,0,2\n"),
    ("square,3,1\nend\n", "refused,6,0,2\n"),
    ("square,3,4\nend\n", "refused,6,0,17\n"),
    ("triangular,3,1\nend\n", "refused,6,0,2\n"),
    ("triangular,3,4\nend\n", "refused,6,0,23\n"),
    ("hexagonal,1,3\nend\n", "refused,6,0,2\n"),
    ("hexagonal,2,2\nend\n", "refused,6,0,3\n"),
    ("hexagonal,3,4\nend\n", "refused,6,0,13\n"),
    ("cylinder,1,3\nend\n", "refused,6,0,3\n"),
    ("cylinder,3,4\nend\n", "refused,6,0,20\n"),
]

GENERAL = [
    ("general,2\nbond,0,0,1\nend\n", "refused,9,0\n"),
    ("general,2\nbond,0,1,3\nbond,0,1,-2\nbond,0,1,1\nrot,0,0,2,4\nrot,1,1,5\nend\n", "refused,10,1,3\n"),
    ("general,2\nbond,0,1,3\nbond,0,1,-2\nbond,0,1,1\nrot,0,0,2,4\nrot,1,1,3,5\nend\n", "refused,15,0\n"),
    (
        "general,2\nbond,0,1,1\nbond,0,1,1\nbond,0,1,1\nbond,0,1,1\nbond,0,1,1\nrot,0,0,2,4,6,8\nrot,1,1,3,5,7,9\nend\n",
        "refused,15,-2\n",
    ),
    (
        "# a grid of three by three, closed in both directions\ngeneral,9\nbond,0,1,1\nbond,0,3,1\nbond,1,2,1\nbond,1,4,1\nbond,2,0,1\nbond,2,5,1\nbond,3,4,1\nbond,3,6,1\nbond,4,5,1\nbond,4,7,1\nbond,5,3,1\nbond,5,8,1\nbond,6,7,1\nbond,6,0,1\nbond,7,8,1\nbond,7,1,1\nbond,8,6,1\nbond,8,2,1\nrot,0,0,2,9,27\nrot,1,4,6,1,31\nrot,2,8,10,5,35\nrot,3,12,14,21,3\nrot,4,16,18,13,7\nrot,5,20,22,17,11\nrot,6,24,26,33,15\nrot,7,28,30,25,19\nrot,8,32,34,29,23\nend\n",
        "refused,15,0\n",
    ),
    ("general,2\nbond,0,1,7\nrot,0,0\nrot,1,1\nrot,1,1\nend\n", "refused,5,4\n"),
]

# Of two faults the first is named.
FAULTS = [
    ("cube,2\nx", "refused,4,0\n"),
    ("square,2\nx", "refused,5,0\n"),
    ("square,0,x\nend\n", "refused,3,0,1\n"),
    ("square,1,2\n1,y\nz", "refused,3,1,1\n"),
    ("square,1,2\n1\nseam,x\nseam\nend", "refused,3,2,1\n"),
    ("square,1,2\nseam,9\n1,2\nend\n", "refused,6,2,1\n"),
    ("square,1,2\n1\nseam,9\nend\nmore\n", "refused,11,9\n"),
    ("square,1,2\n17592186044417\nend\nmore\n", "refused,12,3\n"),
    ("square,1,2\n1,2\nend,1\n", "refused,5,2\n"),
    ("general,2\nbond,0,0,1\nbond,0,9,1\nend\n", "refused,9,0\n"),
    ("general,2\nbond,0,1,1\nseam,7\nend\n", "refused,10,0,0\n"),
    ("general,3\nbond,0,1,17592186044417\nrot,0,0\nrot,1,1\nend\n", "refused,13,17592186044417\n"),
    ("general,3\nbond,0,1,1\nrot,0,0\nrot,1,1\nend\nx", "refused,12,5\n"),
]


def many_bonds(bonds):
    """A text of so many bonds between two spins."""
    return "general,2\n" + bonds * "bond,0,1,1\n" + "end\n"


def cases():
    yield from rows.answered_each(LATTICES, "energy", rows.REFUSED)
    yield rows.answered("wall", "square,1,1\nend\n", rows.REFUSED, "refused,16\n")
    yield from rows.answered_each(SIZES, "energy", rows.REFUSED)
    yield from rows.answered_each(GENERAL, "energy", rows.REFUSED)
    yield from rows.answered_each(FAULTS, "energy", rows.REFUSED)
    yield rows.answered("energy", many_bonds(6145), rows.REFUSED, "refused,8,6145\n")
