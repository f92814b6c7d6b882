"""Proofs that are judged. The numbers of each line were worked by hand from the definitions of a packing and of the
verdict."""
import rows

# Four spins in a square, its bonds (0,1), (2,3), (0,2) and (1,3) with the couplings 3, 4, 2 and -5.
SQUARE = "square,2,2\n3,4\n2,-5\nend\n"

# Its least energy, and spins that have it.
GROUND = "energy,-10\nspins,1,1,-1,-1\n"

PROOFS = [
    "square,2,2\n3,4\n2,-5\nend\nenergy,-10\nspins,1,1,-1,-1\nloop,4,0,1,2,3\nend\n",
    "square,2,2\n3,4\n2,-5\nend\nenergy,-10\nspins,1,1,-1,-1\nloop,2,0,1,2,3\nloop,2,0,1,2,3\nend\n",
    "square,2,2\n3,4\n2,-5\nend\nenergy,-10\nspins,-1,-1,1,1\nloop,1,0,1,2,3\nloop,3,0,1,2,3\nend\n",
    "square,2,2\n0,0,0,0\nend\nenergy,0\nspins,1,-1,1,1\nend\n",
    "# the embedding is not planar\ngeneral,2\nbond,0,1,3\nbond,0,1,-2\nbond,0,1,1\nrot,0,0,2,4\nrot,1,1,3,5\nend\nenergy,-2\nspins,1,1\nloop,4,0,1\nend\n",
    "# not connected\ngeneral,2\nend\nenergy,0\nspins,1,-1\nend\n",
    "# a sum above the limit of the solver\nsquare,1,2\n17592186044417\nend\nenergy,-17592186044417\nspins,-1,-1\nend\n",
    "square,1,2\n9223372036854775807\nend\nenergy,-9223372036854775807\nspins,1,1\nend\n",
    "square,2,2\n3,4\n2,-5\nend\n\n# by hand\n energy , -010,\n\tspins,+1,1,-01,-1,,\nloop,4,0,1,2,3\n# the end\nend,\n# behind it\n",
]

# The lines behind a ground state of the square, and the line of the verdict.
LOOPS = [
    ("end\n", "no,7,0,4\n"),
    ("loop,5,0,1,2,3\nend\n", "no,6,2,5\n"),
    ("loop,2,0,1,2,3\nend\n", "no,7,2,4\n"),
    ("loop,4,0,1\nend\n", "no,4,0,0\n"),
    ("loop,4,2,3\nend\n", "no,4,0,0\n"),
    ("loop,4,1,0\nend\n", "no,3,0\n"),
    ("loop,0,0,1,2,3\nend\n", "no,3,0\n"),
    ("loop,4,0,1,2,2\nend\n", "no,3,0\n"),
    ("loop,4,0,1,2,4\nend\n", "no,3,0\n"),
    ("loop,4,0,1,2,4294967295\nend\n", "no,3,0\n"),
    ("loop,4\nend\n", "no,3,0\n"),
    ("loop,4,0,1,2,3\nloop,1,0,1,2,3\nend\n", "no,6,2,5\n"),
    ("loop,2,0,1,2,3\nloop,2,0,1\nend\n", "no,4,1,0\n"),
    ("loop,2,0,1\nloop,2\nend\n", "no,3,1\n"),
    ("loop,9223372036854775807,0,1,2,3\nloop,9223372036854775807,0,1,2,3\nend\n", "no,6,0,18446744073709551614\n"),
]

OTHERS = [
    ("square,2,2\n3,4\n2,-5\nend\nenergy,-10\nspins,1,1\nloop,5,0,1,2,3\nend\n", "no,1,2\n"),
    ("square,2,2\n3,4\n2,-5\nend\nenergy,-9\nspins\nend\n", "no,1,0\n"),
    ("triangular,2,2\n-1,-1,-1,-1,-1\nend\nenergy,-3\nspins,1,-1,-1,1\nloop,2,0,1,2,3\nend\n", "no,5,0\n"),
    ("square,2,2\n1,1,1,0\nend\nenergy,-3\nspins,1,1,1,1\nloop,1,0,1,2,3\nend\n", "no,5,0\n"),
    (
        "square,1,3\n9223372036854775807,-9223372036854775807\nend\nenergy,0\nspins,1,1,-1\nend\n",
        "no,2,-18446744073709551614\n",
    ),
    (
        "square,1,2\n9223372036854775807\nend\nenergy,9223372036854775807\nspins,1,-1\nend\n",
        "no,7,0,18446744073709551614\n",
    ),
]

# The proof `energy,-10`, `spins,1,1,-1,-1`, `loop,4,0,1,2,3` of the square holds. With any one of its numbers changed,
# or a coupling, it fails: the couplings, the energy, the spins and the loop, and the line of the verdict.
CHANGED = [
    ("3,4\n2,-5", "-9", "1,1,-1,-1", "4,0,1,2,3", "no,2,-10\n"),
    ("3,4\n2,-5", "-11", "1,1,-1,-1", "4,0,1,2,3", "no,2,-10\n"),
    ("3,4\n2,-5", "-10", "-1,1,-1,-1", "4,0,1,2,3", "no,2,-8\n"),
    ("3,4\n2,-5", "-10", "1,-1,-1,-1", "4,0,1,2,3", "no,2,6\n"),
    ("3,4\n2,-5", "-10", "1,1,1,-1", "4,0,1,2,3", "no,2,-6\n"),
    ("3,4\n2,-5", "-10", "1,1,-1,1", "4,0,1,2,3", "no,2,8\n"),
    ("3,4\n2,-5", "-10", "1,1,-1,-1", "3,0,1,2,3", "no,7,3,4\n"),
    ("3,4\n2,-5", "-10", "1,1,-1,-1", "5,0,1,2,3", "no,6,2,5\n"),
    ("3,4\n2,-5", "-10", "1,1,-1,-1", "-4,0,1,2,3", "no,3,0\n"),
    ("3,4\n2,-5", "-10", "1,1,-1,-1", "4,1,1,2,3", "no,3,0\n"),
    ("3,4\n2,-5", "-10", "1,1,-1,-1", "4,0,0,2,3", "no,3,0\n"),
    ("3,4\n2,-5", "-10", "1,1,-1,-1", "4,0,2,2,3", "no,3,0\n"),
    ("3,4\n2,-5", "-10", "1,1,-1,-1", "4,0,1,1,3", "no,3,0\n"),
    ("3,4\n2,-5", "-10", "1,1,-1,-1", "4,0,1,3,3", "no,3,0\n"),
    ("3,4\n2,-5", "-10", "1,1,-1,-1", "4,0,1,2,2", "no,3,0\n"),
    ("3,4\n2,-5", "-10", "1,1,-1,-1", "4,0,1,2,4", "no,3,0\n"),
    ("2,4\n2,-5", "-10", "1,1,-1,-1", "4,0,1,2,3", "no,2,-9\n"),
    ("4,4\n2,-5", "-10", "1,1,-1,-1", "4,0,1,2,3", "no,2,-11\n"),
    ("3,3\n2,-5", "-10", "1,1,-1,-1", "4,0,1,2,3", "no,2,-9\n"),
    ("3,5\n2,-5", "-10", "1,1,-1,-1", "4,0,1,2,3", "no,2,-11\n"),
    ("3,4\n1,-5", "-10", "1,1,-1,-1", "4,0,1,2,3", "no,2,-11\n"),
    ("3,4\n3,-5", "-10", "1,1,-1,-1", "4,0,1,2,3", "no,2,-9\n"),
    ("3,4\n2,-4", "-10", "1,1,-1,-1", "4,0,1,2,3", "no,2,-9\n"),
    ("3,4\n2,-6", "-10", "1,1,-1,-1", "4,0,1,2,3", "no,2,-11\n"),
]

# What stands behind the square in two parts, and the line of the refusal.
RESULTS = [
    ("", "", "refused,2\n"),
    ("energy,-10\n", "", "refused,2\n"),
    (GROUND, "", "refused,2\n"),
    (GROUND, "loop,4,0,1,2,3\n", "refused,2\n"),
    ("energy,x\n", "", "refused,3,4,1\n"),
    ("energy,-9223372036854775808\n", "", "refused,3,4,1\n"),
    ("energi,-10\n", "", "refused,4,4\n"),
    ("end\n", "", "refused,4,4\n"),
    ("spins,1,1,-1,-1\n", "", "refused,4,4\n"),
    ("energy\n", "", "refused,5,4\n"),
    ("energy,x,y\n", "", "refused,5,4\n"),
    ("energy,-10\n", "energy,-10\n", "refused,4,5\n"),
    ("energy,-10\n", "spins,1,2,3,-1\nend\n", "refused,3,5,2\n"),
    ("energy,-10\n", "spins,1,1,-1,0\nend\n", "refused,3,5,4\n"),
    ("energy,-10\n", "spins,1,,-1,-1\nend\n", "refused,3,5,2\n"),
    (GROUND, "spins,1,1,-1,-1\nend\n", "refused,4,6\n"),
    (GROUND, "loops,4,0,1,2,3\nend\n", "refused,4,6\n"),
    (GROUND, "loop\nend\n", "refused,5,6\n"),
    (GROUND, "loop,,\nend\n", "refused,5,6\n"),
    (GROUND, "loop,x,-1\nend\n", "refused,3,6,1\n"),
    (GROUND, "loop,4,0,-1\nend\n", "refused,3,6,3\n"),
    (GROUND, "loop,4,4294967296\nend\n", "refused,3,6,2\n"),
    (GROUND, "loop,4,0\n# two\nloop\nend\n", "refused,5,8\n"),
    (GROUND, "end,1\n", "refused,5,6\n"),
    (GROUND, "loop,4,0,1,2,3\nend\nend\n", "refused,12,8\n"),
    (GROUND, "loop,9,9\nend\n\n# more\nx\n", "refused,12,9\n"),
]

# The instance is tested before what is stated of it.
INSTANCES = [
    ("", "refused,2\n"),
    ("square,2,2\n3,4,2\nend\nenergy,x\n", "refused,6,3,4\n"),
    ("square,2,3\n3,4\n2,-5\nend\nenergy,x\n", "refused,6,4,7\n"),
    ("general,2\nbond,0,1,7\nrot,0,0\nend\nenergy\n", "refused,10,1,1\n"),
    ("square,1,2\n1\nseam,1\nend\nend\n", "refused,11,1\n"),
]


def cases():
    for given in PROOFS:
        yield rows.answered("check", given, rows.DONE, "yes\n")
    for lines, line in LOOPS:
        yield rows.answered("check", SQUARE + GROUND + lines, rows.NO, line)
    yield from rows.answered_each(OTHERS, "check", rows.NO)
    for couplings, energy, spins, entry, line in CHANGED:
        given = f"square,2,2\n{couplings}\nend\nenergy,{energy}\nspins,{spins}\nloop,{entry}\nend\n"
        yield rows.answered("check", given, rows.NO, line)
    for first, second, line in RESULTS:
        yield rows.answered("check", SQUARE + first + second, rows.REFUSED, line)
    yield from rows.answered_each(INSTANCES, "check", rows.REFUSED)
