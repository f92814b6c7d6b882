"""Instances in JSON. The energies were worked by hand, and the lines of the refusals from the table of the members."""
import rows

INSTANCES = [
    ("energy", '{"kind":"square","rows":2,"cols":2,"couplings":[3,4,2,-5]}', "energy,-10\nspins,1,1,-1,-1\nend\n"),
    (
        "wall",
        '{"kind":"square","rows":2,"cols":2,"couplings":[3,4,2,-5],"seam":[2]}',
        "periodic,-10\nantiperiodic,-14\nwall,-4\nend\n",
    ),
    (
        "wall",
        '\ufeff\ufeff \r\n\t{ "seam" : [0], "rows" : 7, "k\\u0069nd" : "square", "cols" : 2, "couplings" : [-7], "rows" : 1 }\n',
        "periodic,-7\nantiperiodic,-7\nwall,0\nend\n",
    ),
    (
        "wall",
        '{"kind":"general","n":2,"bonds":[[0,1,7]],"rotation":[[0],[1]],"seam":[0]}',
        "periodic,-7\nantiperiodic,-7\nwall,0\nend\n",
    ),
]

REFUSED = [
    ("{", "refused,18\n"),
    ("{} x", "refused,18\n"),
    ('{"kind":"square",}', "refused,18\n"),
    ('{"kind":"square","rows":01}', "refused,18\n"),
    ("{}", "refused,19,1,0\n"),
    ('{"kind":"squ\\u0000are"}', "refused,19,1,0\n"),
    ('{"kind":"square","rows":1,"cols":1,"couplings":[],"note":1}', "refused,19,2,0\n"),
    ('{"kind":"square","rows":1.0,"cols":0,"couplings":0}', "refused,19,3,0\n"),
    ('{"kind":"square","rows":2,"couplings":[]}', "refused,19,4,0\n"),
    ('{"kind":"cylinder","rows":2,"cols":2,"couplings":[]}', "refused,19,4,0\n"),
    ('{"kind":"general","n":"2"}', "refused,19,5,0\n"),
    ('{"kind":"square","rows":3037000500,"cols":3037000500,"couplings":0}', "refused,7,9223372037000250000\n"),
    ('{"kind":"square","rows":1,"cols":2,"couplings":[1.5]}', "refused,19,6,0\n"),
    ('{"kind":"square","rows":1,"cols":2,"couplings":[1e2]}', "refused,19,6,0\n"),
    ('{"kind":"square","rows":1,"cols":3,"couplings":[9223372036854775807,-0],"seam":null}', "refused,19,6,1\n"),
    (
        '{"kind":"square","rows":1,"cols":3,"couplings":[-9223372036854775807,-9223372036854775808]}',
        "refused,19,6,1\n",
    ),
    ('{"kind":"general","n":2,"bonds":[[0,1,7],[0,2,1]],"rotation":[]}', "refused,19,7,1\n"),
    ('{"kind":"general","n":2,"bonds":[[0,1]],"rotation":[]}', "refused,19,7,0\n"),
    ('{"kind":"general","n":2,"bonds":[],"rotation":[[],[],[0.5]]}', "refused,19,8,0\n"),
    ('{"kind":"general","n":2,"bonds":[],"rotation":[[],[4294967296]]}', "refused,19,8,1\n"),
    ('{"kind":"square","rows":1,"cols":2,"couplings":[1,2],"seam":null}', "refused,19,9,0\n"),
    ('{"kind":"general","n":2,"bonds":[[0,0,1]],"rotation":[[],[]]}', "refused,9,0\n"),
    ('{"kind":"square","rows":1,"cols":2,"couplings":[1,2],"seam":[4]}', "refused,6,2,1\n"),
    ('{"kind":"general","n":2,"bonds":[[0,1,1]],"rotation":[[],[1]],"seam":[7]}', "refused,10,0,0\n"),
    ('{"kind":"square","rows":1,"cols":2,"couplings":[1],"seam":[4]}', "refused,11,4\n"),
]

# How many lists stand one within the other in place of the kind, and the line of the refusal: a nesting of 127 is
# read, and one of 128 is not.
DEPTHS = [
    (126, "refused,19,1,0\n"),
    (127, "refused,18\n"),
]

SQUARE = '{"kind":"square","rows":2,"cols":2,"couplings":[3,4,2,-5]}'


def nested(lists):
    return '{"kind":' + lists * "[" + lists * "]" + "}"


def cases():
    yield from rows.lines_answered(INSTANCES, rows.DONE)
    yield from rows.answered_each(REFUSED, "energy", rows.REFUSED)
    # A byte that is no text.
    yield rows.answered("energy", b'{"kind":"\xff"}', rows.REFUSED, "refused,18\n")
    for lists, line in DEPTHS:
        yield rows.answered("energy", nested(lists), rows.REFUSED, line)
    # A list is no JSON input, and `check` reads records alone.
    yield rows.answered("energy", "[]", rows.REFUSED, "refused,4,0\n")
    yield rows.answered("check", SQUARE, rows.REFUSED, "refused,4,0\n")
