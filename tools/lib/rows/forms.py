"""The bytes of texts with a proof: of several proofs any may be printed, but each line has one form."""
import re

import rows

SQUARE = "square,2,2\n3,4\n2,-5\nseam,0\nend\n"
ROADS = "graph,3\nedge,0,1,2\nedge,1,2,3\nedge,0,2,4\nterm,0,2\nend\n"
BRIDGES = "graph,4\nedge,0,2,1\nedge,0,2,1\nedge,1,2,1\nedge,1,2,1\nedge,0,3,1\nedge,1,3,1\nedge,2,3,1\nend\n"

# A loop of a frustrated square as a line and in a report, a cut, and a step of a walk.
LOOP = r"loop,[1-4],0,1,2,3\n"
ENTRY = r'\{"bonds":\[0,1,2,3\],"y":[1-4]\}'
CUT = r"cut,[1-9]\d*(,\d+)+\n"
STEP = r"step,[0-6],[0-3]\n"

# A command, an input, and the form of all that is written.
FORMS = [
    ("ground", SQUARE, rf"energy,-10\nspins,1,1,-1,-1\n({LOOP})+end\n"),
    ("maxcut", SQUARE, rf"cut,7\nspins,1,-1,1,-1\n({LOOP})+end\n"),
    (
        "report",
        SQUARE,
        rf'\{{"bonds":4,"clusters":\[0,0,0,0\],"costs":\[2,4,2,6\],"energy":-10,"loops":\[{ENTRY}(,{ENTRY})*\],'
        r'"spins":\[1,1,-1,-1\],"sum":14,"wall":\{"antiperiodic":-14,"difference":-4,"periodic":-10\}\}\n',
    ),
    ("tjoin", ROADS, rf"weight,4\nedges,2\n({CUT})+end\n"),
    ("postman", BRIDGES, rf"weight,9\n({STEP}){{9}}({CUT})+end\n"),
    ("postman", "graph,2\nedge,0,1,3\nend\n", rf"weight,6\nstep,0,1\nstep,0,0\n({CUT})+end\n"),
]


def formed(words, given, form):
    """A row that is done, and whose text has the form."""
    def test(run):
        seen = run(words, given.encode())
        return None if seen[0] == rows.DONE and re.fullmatch(form.encode(), seen[1]) else seen
    return rows.named(words, given), test


def cases():
    for words, given, form in FORMS:
        yield formed(words, given, form)
