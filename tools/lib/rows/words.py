"""Words that name no command, whatever the input."""
import rows

SQUARE = "square,1,1\nend\n"

SHAPELESS = ["ground x", "", "Energy", "energy energy", "energy,"]

# Words near those of the commands that draw; these read nothing.
UNDRAWN = [
    "",
    "ground x",
    "gen",
    "gen one 0 square 1",
    "gen one 0 square 1 1 1",
    "gen one 0 cube 2 2",
    "gen one 0 Square 2 2",
    "gen one -1 square 2 2",
    "gen one +1 square 2 2",
    "gen one 1.0 square 2 2",
    "gen one x square 2 2",
    "gen one 18446744073709551616 square 1 1",
    "gen one 0 square 0 1",
    "gen one 0 square 1 0",
    "gen one 0 square 2049 1",
    "gen one 0 square 46 45",
    "gen one 0 square 4294967297 1",
    "gen one 0 hexagonal 2 1",
    "gen one 0 cylinder 1 2",
    "sample one 0 2",
    "sample one 0 0 2",
    "sample one 0 2 1025",
    "sample one 0 square 2 2",
    "nolaw one 0 2 2",
    "ensemble one 0 2 3",
    "ensemble one 0 2 2 1",
    "ensemble one 0 0 3 1",
    "ensemble one 0 2 3 0",
    "ensemble one 0 2 3 1001",
    "ensemble one 0 2 1025 1",
    "widths one 0 2 2 1",
    "widths one 0 2 65 1",
    "widths one 0 33 64 1",
    "widths one 0 2 3 0",
]


def cases():
    for words in SHAPELESS:
        yield rows.answered(words, SQUARE, rows.USAGE, "usage\n")
    for words in UNDRAWN:
        yield rows.answered(words, "not read", rows.USAGE, "usage\n")
