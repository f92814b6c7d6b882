"""Ground states of lattices and of general instances."""
import rows

LATTICES = [
    ("square,1,1\nend\n", "energy,0\nspins,1\nend\n"),
    ("square,2,2\n3,4\n2,-5\nend\n", "energy,-10\nspins,1,1,-1,-1\nend\n"),
    ("triangular,2,2\n-1,-1,-1,-1,-1\nend\n", "energy,-3\nspins,1,-1,-1,1\nend\n"),
    ("hexagonal,2,3\n4,5,6,7\n3,-8\nend\n", "energy,-27\nspins,1,1,1,-1,-1,-1\nend\n"),
    (
        "general,2\nbond,0,1,3\nbond,0,1,-2\nbond,0,1,1\nrot,0,0,2,4\nrot,1,1,5,3\nend\n",
        "energy,-2\nspins,1,1\nend\n",
    ),
    ("square,1,2\n17592186044416\nend\n", "energy,-17592186044416\nspins,1,1\nend\n"),
    (
        "general,4\nbond,0,1,2\nbond,1,2,-3\nbond,1,3,4\nrot,0,0\nrot,1,1,2,4\nrot,2,3\nrot,3,5\nend\n",
        "energy,-9\nspins,1,1,-1,1\nend\n",
    ),
    (
        "# a wheel: spin 0 is the hub, spins 1 to 6 the rim\ngeneral,7\nbond,0,1,1\nbond,0,2,1\nbond,0,3,1\nbond,0,4,1\nbond,0,5,1\nbond,0,6,1\nbond,1,2,-1\nbond,2,3,-1\nbond,3,4,-1\nbond,4,5,-1\nbond,5,6,-1\nbond,6,1,-1\nrot,0,0,2,4,6,8,10\nrot,1,1,23,12\nrot,2,3,13,14\nrot,3,5,15,16\nrot,4,7,17,18\nrot,5,9,19,20\nrot,6,11,21,22\nend\n",
        "energy,-6\nspins,1,-1,1,-1,1,-1,1\nend\n",
    ),
    (
        "square,4,4\n1,1,1,1,-1,1,1,1,1,1,1,1,1,1,1,1,1,1,1,1,1,1,1,1\nend\n",
        "energy,-22\nspins,1,1,1,1,1,1,1,1,1,1,1,1,1,1,1,1\nend\n",
    ),
    ("# a spreadsheet's export\nsquare,2,2,\n 3 , 4,\n2,-5,,\nseam,0\nend\n", "energy,-10\nspins,1,1,-1,-1\nend\n"),
]

# Lattices, and the same ones written out as general instances. The energies were found by trying all assignments in
# another language.
WRITTEN_OUT = [
    ("square,2,3\n4,-6,-5,6,-4,-5,3\nend\n", "energy,-25\nspins,1,-1,1,-1,1,1\nend\n"),
    (
        "general,6\nbond,0,1,4\nbond,1,2,-6\nbond,3,4,-5\nbond,4,5,6\nbond,0,3,-4\nbond,1,4,-5\nbond,2,5,3\nrot,0,0,8\nrot,1,2,1,10\nrot,2,3,12\nrot,3,4,9\nrot,4,6,11,5\nrot,5,13,7\nend\n",
        "energy,-25\nspins,1,-1,1,-1,1,1\nend\n",
    ),
    ("triangular,2,3\n-2,-5,2,1,3,-4,1,-2,3\nend\n", "energy,-15\nspins,1,-1,1,1,1,-1\nend\n"),
    (
        "general,6\nbond,0,1,-2\nbond,1,2,-5\nbond,3,4,2\nbond,4,5,1\nbond,0,3,3\nbond,1,4,-4\nbond,2,5,1\nbond,0,4,-2\nbond,1,5,3\nrot,0,0,8,14\nrot,1,2,1,10,16\nrot,2,3,12\nrot,3,4,9\nrot,4,6,11,15,5\nrot,5,13,17,7\nend\n",
        "energy,-15\nspins,1,-1,1,1,1,-1\nend\n",
    ),
    ("hexagonal,3,3\n2,-1,6,-4,5,-1,-4,-2,0\nend\n", "energy,-25\nspins,1,1,-1,-1,-1,1,-1,-1,1\nend\n"),
    (
        "general,9\nbond,0,1,2\nbond,1,2,-1\nbond,3,4,6\nbond,4,5,-4\nbond,6,7,5\nbond,7,8,-1\nbond,0,3,-4\nbond,2,5,-2\nbond,4,7,0\nrot,0,0,12\nrot,1,2,1\nrot,2,3,14\nrot,3,4,13\nrot,4,6,5,16\nrot,5,15,7\nrot,6,8\nrot,7,10,17,9\nrot,8,11\nend\n",
        "energy,-25\nspins,1,1,-1,-1,-1,1,-1,-1,1\nend\n",
    ),
    ("cylinder,2,3\n-1,2,3,6,-6,-2,-4,6,-3\nend\n", "energy,-27\nspins,1,-1,-1,-1,-1,1\nend\n"),
    (
        "general,6\nbond,0,1,-1\nbond,1,2,2\nbond,2,0,3\nbond,3,4,6\nbond,4,5,-6\nbond,5,3,-2\nbond,0,3,-4\nbond,1,4,6\nbond,2,5,-3\nrot,0,0,5,12\nrot,1,2,1,14\nrot,2,4,3,16\nrot,3,6,13,11\nrot,4,8,15,7\nrot,5,10,17,9\nend\n",
        "energy,-27\nspins,1,-1,-1,-1,-1,1\nend\n",
    ),
]


def cases():
    yield from rows.answered_each(LATTICES, "energy", rows.DONE)
    yield from rows.answered_each(WRITTEN_OUT, "energy", rows.DONE)
