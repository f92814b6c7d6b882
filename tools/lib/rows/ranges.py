"""Turning couplings and largest cuts."""
import rows

TURNS = [
    ("cylinder,1,3\n5,7,-2\nend\n", "turn,0,2,above\nturn,1,2,above\nturn,2,-5,above\nend\n"),
    ("cylinder,1,3\n1,1,-1\nend\n", "turn,0,1,at\nturn,1,1,at\nturn,2,-1,at\nend\n"),
    ("square,1,2\n-3\nend\n", "turn,0,0,below\nend\n"),
    ("square,1,1\nend\n", "end\n"),
]

# The exit status, the input and the text.
CUTS = [
    (0, "square,1,2\n5\nend\n", "cut,5\nspins,1,-1\nend\n"),
    (0, "square,1,2\n-5\nend\n", "cut,0\nspins,1,1\nend\n"),
    (1, "square,1,2\n17592186044417\nend\n", "refused,13,17592186044417\n"),
]

SQUARE = "square,2,2\n3,4\n2,-5\nend\n"
# The square with every sign changed, whose energy is 4 - 2 * 7.
NEGATED = "square,2,2\n-3,-4\n-2,5\nend\nenergy,-10\n"


def square_cut(run):
    """The loops of the cut of the frustrated square prove the energy of the square with every sign changed."""
    seen = run("maxcut", SQUARE.encode())
    good = rows.is_begun(seen, "cut,7\nspins,1,-1,1,-1\nloop,")
    return rows.judged(run, NEGATED, seen[1].removeprefix(b"cut,7\n")) if good else seen


def cases():
    yield from rows.answered_each(TURNS, "ranges", rows.DONE)
    for status, given, text in CUTS:
        yield rows.answered("maxcut", given, status, text)
    yield "the cut of a square is proved", square_cut
