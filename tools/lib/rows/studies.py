"""Walls, costs of bonds, clusters and reports, and each study of each form of instance."""
import rows

ANSWERS = [
    ("wall", "cylinder,1,3\n5,7,2\nend\n", "periodic,-14\nantiperiodic,-10\nwall,4\nend\n"),
    ("wall", "square,2,2\n3,4\n2,-5\nseam,0\nend\n", "periodic,-10\nantiperiodic,-14\nwall,-4\nend\n"),
    ("bonds", "cylinder,1,3\n5,7,-2\nend\n", "cost,0,6,rigid\ncost,1,10,rigid\ncost,2,6,rigid\nend\n"),
    ("clusters", "cylinder,1,3\n5,7,-2\nend\n", "cluster,0,0\ncluster,1,0\ncluster,2,0\nend\n"),
    ("bonds", "cylinder,1,3\n1,1,-1\nend\n", "cost,0,0,loose\ncost,1,0,loose\ncost,2,0,loose\nend\n"),
    ("clusters", "cylinder,1,3\n1,1,-1\nend\n", "cluster,0,0\ncluster,1,1\ncluster,2,2\nend\n"),
    ("bonds", "square,1,2\n17592186044416\nend\n", "cost,0,35184372088832,rigid\nend\n"),
    (
        "report",
        "cylinder,1,3\n5,7,2\nend\n",
        '{"bonds":3,"clusters":[0,0,0],"costs":[14,18,14],"energy":-14,"loops":[],"spins":[1,1,1],"sum":14,"wall":{"antiperiodic":-10,"difference":4,"periodic":-14}}\n',
    ),
    (
        "report",
        "square,1,1\nend\n",
        '{"bonds":0,"clusters":[0],"costs":[],"energy":0,"loops":[],"spins":[1],"sum":0,"wall":null}\n',
    ),
]

# All costs of a cylinder of twelve spins, and of a triangular strip of ten spins with its spins renamed and its
# embedding mirrored. The numbers were found by trying all assignments in another language.
LARGER = [
    (
        "bonds",
        "cylinder,3,4\n4,-1,0,5,3,-5,2,-2,5,-5,-3,-4,0,2,-2,1,3,-4,4,-2\nend\n",
        "cost,0,6,rigid\ncost,1,0,loose\ncost,2,0,loose\ncost,3,8,rigid\ncost,4,4,rigid\ncost,5,4,rigid\ncost,6,4,rigid\ncost,7,4,rigid\ncost,8,4,rigid\ncost,9,0,loose\ncost,10,2,rigid\ncost,11,0,loose\ncost,12,0,loose\ncost,13,0,loose\ncost,14,2,rigid\ncost,15,0,loose\ncost,16,0,loose\ncost,17,0,loose\ncost,18,4,rigid\ncost,19,2,rigid\nend\n",
    ),
    (
        "bonds",
        "general,10\nbond,3,0,2\nbond,0,9,0\nbond,9,7,-4\nbond,7,6,1\nbond,8,1,2\nbond,1,5,-2\nbond,5,4,-2\nbond,4,2,0\nbond,3,8,-3\nbond,0,1,1\nbond,9,5,0\nbond,7,4,-4\nbond,6,2,1\nbond,3,1,-3\nbond,0,5,0\nbond,9,4,1\nbond,7,2,0\nrot,0,28,18,1,2\nrot,1,9,27,19,10\nrot,2,15,33,25\nrot,3,26,16,0\nrot,4,13,31,23,14\nrot,5,11,29,21,12\nrot,6,24,7\nrot,7,32,22,5,6\nrot,8,17,8\nrot,9,30,20,3,4\nend\n",
        "cost,0,2,rigid\ncost,1,2,rigid\ncost,2,10,rigid\ncost,3,2,rigid\ncost,4,8,rigid\ncost,5,4,rigid\ncost,6,4,rigid\ncost,7,2,rigid\ncost,8,10,rigid\ncost,9,2,rigid\ncost,10,4,rigid\ncost,11,10,rigid\ncost,12,2,rigid\ncost,13,8,rigid\ncost,14,2,rigid\ncost,15,10,rigid\ncost,16,2,rigid\nend\n",
    ),
    (
        "energy",
        "general,10\nbond,3,0,2\nbond,0,9,0\nbond,9,7,-4\nbond,7,6,1\nbond,8,1,2\nbond,1,5,-2\nbond,5,4,-2\nbond,4,2,0\nbond,3,8,-3\nbond,0,1,1\nbond,9,5,0\nbond,7,4,-4\nbond,6,2,1\nbond,3,1,-3\nbond,0,5,0\nbond,9,4,1\nbond,7,2,0\nrot,0,28,18,1,2\nrot,1,9,27,19,10\nrot,2,15,33,25\nrot,3,26,16,0\nrot,4,13,31,23,14\nrot,5,11,29,21,12\nrot,6,24,7\nrot,7,32,22,5,6\nrot,8,17,8\nrot,9,30,20,3,4\nend\n",
        "energy,-24\nspins,1,-1,1,1,-1,1,1,1,-1,-1\nend\n",
    ),
]

# The studies of an instance.
STUDIES = ["energy", "ground", "wall", "bonds", "clusters", "report", "ranges", "maxcut"]

INPUTS = [
    "square,2,2\n3,4\n2,-5\nseam,0\nend\n",
    "triangular,2,2\n-1,2,-1,3\n-1\nseam,1,2\nend\n",
    "hexagonal,2,3\n4,5,6,7\n3,-8\nseam,5\nend\n",
    "cylinder,2,3\n5,7,-2,1,-1,1,3,-3,2\nend\n",
    "general,3\nbond,0,1,-1\nbond,1,2,-1\nbond,2,0,-1\nrot,0,0,5\nrot,1,1,2\nrot,2,3,4\nseam,2\nend\n",
    "general,4\nbond,0,1,2\nbond,2,3,-5\nrot,0,0\nrot,1,1\nrot,2,2\nrot,3,3\nseam,1\nend\n",
    '{"kind":"square","rows":2,"cols":2,"couplings":[3,4,2,-5],"seam":[0]}',
    '{"kind":"triangular","rows":2,"cols":2,"couplings":[-1,2,-1,3,-1],"seam":[1,2]}',
    '{"kind":"hexagonal","rows":2,"cols":3,"couplings":[4,5,6,7,3,-8],"seam":[5]}',
    '{"kind":"cylinder","rows":1,"cols":3,"couplings":[5,7,-2]}',
    '{"kind":"general","n":2,"bonds":[[0,1,7]],"rotation":[[0],[1]],"seam":[0]}',
]


def cases():
    yield from rows.lines_answered(ANSWERS, rows.DONE)
    yield from rows.lines_answered(LARGER, rows.DONE)
    # No clause says when an allocation fails. Where memory is ample each study of each form is answered.
    for given in INPUTS:
        for study in STUDIES:
            yield rows.begun(study, given, "")
