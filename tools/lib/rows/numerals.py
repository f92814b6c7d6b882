"""Numbers in fields, and a spreadsheet's export. The energies were worked by hand."""
import rows

READ = [
    "square,1,2\n+5\nend\nenergy,-5\nspins,1,1\nend\n",
    "square,1,2\n-007\nend\nenergy,-7\nspins,1,-1\nend\n",
    "square,1,2\n-9223372036854775807\nend\nenergy,-9223372036854775807\nspins,1,-1\nend\n",
    "# a spreadsheet's export\nsquare,2,2,\n 3 ,\t4,\n2,-5,,\nseam,0\nend\nenergy,-10\nspins,1,1,-1,-1\nloop,4,0,1,2,3\nend\n",
]

REFUSED = [
    "square,1,2\n-\nend\n",
    "square,1,2\n+\nend\n",
    "square,1,2\n5.\nend\n",
    "square,1,2\n1e2\nend\n",
    "square,1,2\n0x5\nend\n",
    "square,1,2\n5 5\nend\n",
    "square,1,2\n9223372036854775808\nend\n",
    "square,1,2\n-9223372036854775808\nend\n",
]

EXTREMES = [
    ("square,1,2\n9223372036854775807\nend\n", "refused,13,9223372036854775807\n"),
    ("square,1,2\n-9223372036854775808\nend\n", "refused,3,1,0\n"),
    ("square,1,3\n9223372036854775807,-9223372036854775807\nend\n", "refused,13,18446744073709551614\n"),
    ("square,9223372036854775807,9223372036854775807\nend\n", "refused,7,85070591730234615847396907784232501249\n"),
    ("square,18446744073709551616,1\nend\n", "refused,3,0,1\n"),
]


def cases():
    for given in READ:
        yield rows.answered("check", given, rows.DONE, "yes\n")
    for given in REFUSED:
        yield rows.answered("check", given, rows.REFUSED, "refused,3,1,0\n")
    yield from rows.answered_each(EXTREMES, "energy", rows.REFUSED)
