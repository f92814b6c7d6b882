"""What can be done to an input: it is cut at each byte, or a byte is changed. The lines for the cut inputs come from
another program that follows the rules of the formats."""
import rows
import rules

# A command and an input, and the first line of the answer to so many of its bytes and more.
GROWING = [
    (
        "energy",
        "square,2,2\n3,4\n2,-5\nend\n",
        [
            (0, "refused,2\n"),
            (1, "refused,4,0\n"),
            (6, "refused,5,0\n"),
            (10, "refused,2\n"),
            (18, "refused,3,2,1\n"),
            (19, "refused,2\n"),
            (21, "refused,3,3,0\n"),
            (23, "energy,-10\n"),
        ],
    ),
    (
        "energy",
        "triangular,2,2\n-1,2,-1,3\n-1\nend\n",
        [
            (0, "refused,2\n"),
            (1, "refused,4,0\n"),
            (10, "refused,5,0\n"),
            (14, "refused,2\n"),
            (16, "refused,3,1,0\n"),
            (17, "refused,2\n"),
            (21, "refused,3,1,2\n"),
            (22, "refused,2\n"),
            (26, "refused,3,2,0\n"),
            (27, "refused,2\n"),
            (29, "refused,3,3,0\n"),
            (31, "energy,-8\n"),
        ],
    ),
    (
        "energy",
        "hexagonal,2,3\n4,5,6,7\n3,-8\nend\n",
        [
            (0, "refused,2\n"),
            (1, "refused,4,0\n"),
            (9, "refused,5,0\n"),
            (13, "refused,2\n"),
            (25, "refused,3,2,1\n"),
            (26, "refused,2\n"),
            (28, "refused,3,3,0\n"),
            (30, "energy,-27\n"),
        ],
    ),
    (
        "energy",
        "cylinder,1,3\n5,7,-2\nseam,0\nend\n",
        [
            (0, "refused,2\n"),
            (1, "refused,4,0\n"),
            (8, "refused,5,0\n"),
            (12, "refused,2\n"),
            (18, "refused,3,1,2\n"),
            (19, "refused,2\n"),
            (21, "refused,3,2,0\n"),
            (24, "refused,2\n"),
            (28, "refused,3,3,0\n"),
            (30, "energy,-10\n"),
        ],
    ),
    (
        "energy",
        "general,3\nbond,0,1,-1\nbond,1,2,-1\nbond,2,0,-1\nrot,0,0,5\nrot,1,1,2\nrot,2,3,4\nend\n",
        [
            (0, "refused,2\n"),
            (1, "refused,4,0\n"),
            (7, "refused,5,0\n"),
            (9, "refused,2\n"),
            (11, "refused,4,1\n"),
            (14, "refused,5,1\n"),
            (20, "refused,3,1,3\n"),
            (21, "refused,2\n"),
            (23, "refused,4,2\n"),
            (26, "refused,5,2\n"),
            (32, "refused,3,2,3\n"),
            (33, "refused,2\n"),
            (35, "refused,4,3\n"),
            (38, "refused,5,3\n"),
            (44, "refused,3,3,3\n"),
            (45, "refused,2\n"),
            (47, "refused,4,4\n"),
            (49, "refused,5,4\n"),
            (51, "refused,2\n"),
            (57, "refused,4,5\n"),
            (59, "refused,5,5\n"),
            (61, "refused,2\n"),
            (67, "refused,4,6\n"),
            (69, "refused,5,6\n"),
            (71, "refused,2\n"),
            (77, "refused,4,7\n"),
            (79, "energy,-1\n"),
        ],
    ),
    (
        "check",
        "square,2,2\n3,4\n2,-5\nend\nenergy,-10\nspins,1,1,-1,-1\nloop,2,0,1,2,3\nloop,2,0,1,2,3\nend\n",
        [
            (0, "refused,2\n"),
            (1, "refused,4,0\n"),
            (6, "refused,5,0\n"),
            (10, "refused,2\n"),
            (18, "refused,3,2,1\n"),
            (19, "refused,2\n"),
            (21, "refused,3,3,0\n"),
            (23, "refused,2\n"),
            (25, "refused,4,4\n"),
            (30, "refused,5,4\n"),
            (32, "refused,3,4,1\n"),
            (33, "refused,2\n"),
            (36, "refused,4,5\n"),
            (40, "refused,2\n"),
            (46, "refused,3,5,3\n"),
            (47, "refused,2\n"),
            (49, "refused,3,5,4\n"),
            (50, "refused,2\n"),
            (52, "refused,4,6\n"),
            (55, "refused,5,6\n"),
            (57, "refused,2\n"),
            (67, "refused,4,7\n"),
            (70, "refused,5,7\n"),
            (72, "refused,2\n"),
            (82, "refused,4,8\n"),
            (84, "yes\n"),
        ],
    ),
]

# The bytes that stand in the place of others.
TELLING = b'"\n-0'


def cut(words, given, length, line):
    """An answer to so many bytes, which begins with a line."""
    status = rows.REFUSED if line.startswith("refused") else rows.DONE

    def test(run):
        seen = run(words, given.encode()[:length])
        return None if seen[0] == status and seen[1].startswith(line.encode()) else seen
    return f"{words} < {length} bytes of {given[:30]!r}", test


def line_at(lines, length):
    """The line that stands last among those for so many bytes or fewer."""
    return [line for start, line in lines if start <= length][-1]


def written(n, bonds, rotation, seam):
    """An instance as a general one."""
    lines = [("general", n), *(("bond", *bond) for bond in bonds)]
    lines += [("rot", spin, *darts) for spin, darts in enumerate(rotation) if darts]
    lines += [("seam", *seam)] if seam else []
    return "".join(",".join(map(str, line)) + "\n" for line in [*lines, ("end",)])


def changed(given):
    """Bytes that are refused as the rules say, or answered as the instance that the rules read, written out."""
    def test(run):
        seen = run("energy", given)
        line, read = rules.answer("energy", given)
        if read is None:
            return None if seen == (rows.REFUSED, line.encode() + b"\n") else seen
        good = rows.is_begun(seen, line + "\n") and seen == run("energy", written(*read).encode())
        return None if good else seen
    return rows.named("energy", given), test


def cases():
    for words, given, lines in GROWING:
        for length in range(len(given) + 1):
            yield cut(words, given, length, line_at(lines, length))
    for _, given, _ in GROWING[:5]:
        for place in range(len(given)):
            for byte in TELLING:
                yield changed(given.encode()[:place] + bytes([byte]) + given.encode()[place + 1 :])
