"""Commands that draw from a law of disorder. The draws of `pm` and `uniform` are those of the words that another
implementation of their generator gives."""
import rows

# What is not read.
INPUT = "not read"

DRAWN = [
    ("gen one 0 square 1 1", "square,1,1\nend\n"),
    ("gen pm 42 square 2 2", "square,2,2\n-1,-1,1,-1\nend\n"),
    ("gen alternate 0 square 1 3", "square,1,3\n1,-1\nend\n"),
    ("gen uniform 42 square 2 2", "square,2,2\n787127,-527351,865072,193171\nend\n"),
    ("gen alternate 1 triangular 2 2", "triangular,2,2\n-1,1,-1,1,-1\nend\n"),
    ("gen one 3 hexagonal 2 2", "hexagonal,2,2\n1,1,1\nend\n"),
    ("gen pm 42 cylinder 1 3", "cylinder,1,3\n-1,-1,1\nend\n"),
    ("gen alternate 18446744073709551615 square 1 2", "square,1,2\n-1\nend\n"),
    ("gen one 007 square 01 002", "square,1,2\n1\nend\n"),
    # The words of the generator after the seed 42 are a15c02b7, 7b47f409, ba1d3330, 83d2f293, bfa4784b, cbed606e.
    ("gen one 7 square 1 7", "square,1,7\n1,1,1,1,1,1\nend\n"),
    ("gen alternate 0 square 1 7", "square,1,7\n1,-1,1,-1,1,-1\nend\n"),
    ("gen alternate 7 square 1 7", "square,1,7\n-1,1,-1,1,-1,1\nend\n"),
    ("gen pm 42 square 1 7", "square,1,7\n-1,-1,1,-1,-1,1\nend\n"),
    ("gen uniform 42 square 1 7", "square,1,7\n787127,-527351,865072,193171,-755637,-171922\nend\n"),
    ("sample uniform 42 2 2", "spins,4\nbonds,4\nsum,2372721\nenergy,-1986379\nbroken,193171\nend\n"),
    ("sample one 0 1 1", "spins,1\nbonds,0\nsum,0\nenergy,0\nbroken,0\nend\n"),
    ("sample one 0 3 3", "spins,9\nbonds,12\nsum,12\nenergy,-12\nbroken,0\nend\n"),
    ("ensemble one 0 2 3 3", "wall,0,4\nwall,1,4\nwall,2,4\nsum,12\nsquares,48\nend\n"),
    ("ensemble alternate 0 1 3 2", "wall,0,-2\nwall,1,2\nsum,0\nsquares,8\nend\n"),
    ("widths one 0 2 4 1", "width,3,4,16\nwidth,4,4,16\nend\n"),
    ("widths alternate 0 1 4 1", "width,3,-2,4\nwidth,4,2,4\nend\n"),
]

# Names that no law has.
UNKNOWN = ["sample nolaw 1 4 4", "gen Pm 1 square 2 2", "gen p 1 square 2 2", "ensemble nolaw 1 2 3 1", "widths nolaw 1 2 3 1"]

# The laws of the program.
LAWS = ["one", "alternate", "pm", "uniform"]

# The commands that draw, and what stands behind the seed.
TAILS = [
    ("gen", "square 3 4"),
    ("gen", "triangular 3 4"),
    ("gen", "hexagonal 3 4"),
    ("gen", "cylinder 3 4"),
    ("sample", "3 4"),
    ("ensemble", "3 4 2"),
    ("widths", "3 4 2"),
]

SAMPLE = "sample pm 7 32 32"


def sample(run):
    """A sample is drawn again as it was drawn."""
    seen = run(SAMPLE, INPUT.encode())
    good = rows.is_begun(seen, "spins,1024\nbonds,1984\nsum,1984\nenergy,-") and run(SAMPLE, b"") == seen
    return None if good else seen


def sample_and_instance(run):
    """The energy of a sample is that of `ground` on the same draws as an instance, and is proved there."""
    drawn = run("gen pm 7 square 32 32", b"")[1]
    seen = run("ground", drawn)
    energy = seen[1].split(b"\n")[0]
    good = energy.startswith(b"energy,") and energy == run(SAMPLE, b"")[1].split(b"\n")[3]
    return rows.judged(run, drawn, seen[1]) if good else seen


def cases():
    for words, text in DRAWN:
        yield rows.answered(words, INPUT, rows.DONE, text)
    for words in UNKNOWN:
        yield rows.answered(words, INPUT, rows.REFUSED, "refused,17\n")
    # Where memory is ample each law's lattice of each kind is answered.
    for law in LAWS:
        for command, tail in TAILS:
            yield rows.begun(f"{command} {law} 7 {tail}", INPUT, "")
    yield SAMPLE, sample
    yield f"{SAMPLE}, and its instance", sample_and_instance
