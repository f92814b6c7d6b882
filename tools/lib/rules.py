"""The rules of docs/FORMATS.md for records, in plain Python and without the program: which refusal
a text meets first, or the instance and the result that it gives."""
import itertools

SPINS, BONDS, LARGEST, SUM, INDEX = 2048, 6144, 2**63 - 1, 2**44, 2**32 - 1
MARK = b"\xef\xbb\xbf"


class Refused(Exception):
    pass


def refuse(*numbers):
    raise Refused(",".join(["refused"] + [str(n) for n in numbers]))


def records(text):
    """The records as `csv` gives them: fields in bytes, empty lines left out."""
    while text.startswith(MARK):
        text = text[3:]
    found, record, field, state = [], [], bytearray(), "record"
    for byte in text + b"\n" if text and text[-1:] not in (b"\n", b"\r") else text:
        char = bytes([byte])
        ends = char in (b"\n", b"\r")
        if state == "record" and ends:
            continue
        if state == "quoted":
            if char == b'"':
                state = "quote"
            else:
                field += char
            continue
        if state == "quote" and char == b'"':
            field += char
            state = "quoted"
            continue
        if state in ("record", "field") and char == b'"':
            state = "quoted"
        elif char == b",":
            record.append(bytes(field))
            field, state = bytearray(), "field"
        elif ends:
            record.append(bytes(field))
            found.append(record)
            record, field, state = [], bytearray(), "record"
        else:
            field += char
            state = "inside"
    if state != "record":
        record.append(bytes(field))
        found.append(record)
    return found


def kept(text):
    """The records that count, with their numbers: trimmed, without empty fields at the end."""
    for at, fields in enumerate(records(text)):
        fields = [f.strip(b" \t") for f in fields]
        while fields and fields[-1] == b"":
            fields.pop()
        if fields and not fields[0].startswith(b"#"):
            yield at, fields


def number(field):
    digits = field[1:] if field[:1] in (b"+", b"-") else field
    if not digits or not all(48 <= d <= 57 for d in digits):
        return None
    value = int(field)
    return value if -LARGEST <= value <= LARGEST else None


def numbers(at, fields, first, ranges):
    """The numbers of the fields from `first` on; `ranges` gives the least and the largest by the field."""
    values = []
    for place, field in enumerate(fields[first:], first):
        value = number(field)
        least, most = ranges(place)
        if value is None or value < least or value > most:
            refuse(3, at, place)
        values.append(value)
    return values


ANY = lambda place: (-LARGEST, LARGEST)
AN_INDEX = lambda place: (0, INDEX)
LATTICES = (b"square", b"triangular", b"hexagonal", b"cylinder")


def the_next(rows):
    row = next(rows, None)
    if row is None:
        refuse(2)
    return row


def lattice(kind, rows, cols):
    """The ends of the bonds, the lists of darts and the seam of a lattice."""
    bonds, darts = [], {}
    spin = lambda r, c: r * cols + c
    round_trip = kind == b"cylinder"
    steps = [("east", 0, 1), ("south", 1, 0)] + ([("south-east", 1, 1)] if kind == b"triangular" else [])
    opposite = {"east": "west", "south": "north", "south-east": "north-west"}
    for name, down, right in steps:
        for r, c in itertools.product(range(rows), range(cols)):
            to_r, to_c = r + down, c + right
            if to_r >= rows or (to_c >= cols and not (round_trip and name == "east")):
                continue
            if kind == b"hexagonal" and name == "south" and (r + c) % 2:
                continue
            k = len(bonds)
            bonds.append((spin(r, c), spin(to_r, to_c % cols)))
            darts[spin(r, c), name] = 2 * k
            darts[spin(to_r, to_c % cols), opposite[name]] = 2 * k + 1
    order = ["east", "north", "north-west", "west", "south", "south-east"]
    rotation = [[darts[i, name] for name in order if (i, name) in darts] for i in range(rows * cols)]
    seam = [r * cols + cols - 1 for r in range(rows)] if round_trip else []
    return bonds, rotation, seam


def instance(rows):
    """The instance: spins, bonds with couplings, lists of darts, seam."""
    at, fields = the_next(rows)
    if fields[0] != b"general" and fields[0] not in LATTICES:
        refuse(4, at)
    if len(fields) != (2 if fields[0] == b"general" else 3):
        refuse(5, at)
    least = {b"hexagonal": 2, b"cylinder": 3}.get(fields[0], 1)
    sizes = numbers(at, fields, 1, lambda place: (1 if place == 1 else least, LARGEST))
    n = sizes[0] if len(sizes) == 1 else sizes[0] * sizes[1]
    if n > SPINS:
        refuse(7, n)
    if fields[0] == b"general":
        bonds, rotation, seam = general(rows, n)
    else:
        ends, rotation, seam = lattice(fields[0], *sizes)
        couplings, given = lattice_body(rows)
        if len(couplings) != len(ends):
            refuse(6, len(couplings), len(ends))
        bonds = [(u, v, j) for (u, v), j in zip(ends, couplings)]
        seam = seam if given is None else given
    for i in range(n):
        mine = sorted(d for d in range(2 * len(bonds)) if bonds[d // 2][d % 2] == i)
        for place, d in enumerate(rotation[i]):
            if d not in mine or d in rotation[i][:place]:
                refuse(10, i, d)
        missing = [d for d in mine if d not in rotation[i]]
        if missing:
            refuse(10, i, missing[0])
    for place, b in enumerate(seam):
        if b >= len(bonds) or b in seam[:place]:
            refuse(11, b)
    return n, bonds, rotation, seam


def seam_of(at, fields, seam):
    if seam is not None:
        refuse(5, at)
    return numbers(at, fields, 1, AN_INDEX)


def lattice_body(rows):
    couplings, seam = [], None
    while True:
        at, fields = the_next(rows)
        if fields[0] == b"seam":
            seam = seam_of(at, fields, seam)
        elif fields[0] == b"end":
            if len(fields) > 1:
                refuse(5, at)
            return couplings, seam
        else:
            couplings += numbers(at, fields, 0, ANY)


def general(rows, n):
    bonds, lists, seam = [], {}, None
    while True:
        at, fields = the_next(rows)
        if fields[0] == b"bond":
            if len(fields) != 4:
                refuse(5, at)
            u, v, j = numbers(at, fields, 1, lambda place: ANY(place) if place == 3 else (0, n - 1))
            if len(bonds) == BONDS:
                refuse(8, BONDS + 1)
            if u == v:
                refuse(9, len(bonds))
            bonds.append((u, v, j))
        elif fields[0] == b"rot":
            if len(fields) == 1:
                refuse(5, at)
            i, *darts = numbers(at, fields, 1, lambda place: (0, n - 1) if place == 1 else (0, INDEX))
            if i in lists:
                refuse(5, at)
            lists[i] = darts
        elif fields[0] == b"seam":
            seam = seam_of(at, fields, seam)
        elif fields[0] == b"end":
            if len(fields) > 1:
                refuse(5, at)
            return bonds, [lists.get(i, []) for i in range(n)], seam or []
        else:
            refuse(4, at)


def result(rows):
    """What is stated behind an instance: energy, spins, loops."""
    at, fields = the_next(rows)
    if fields[0] != b"energy":
        refuse(4, at)
    if len(fields) != 2:
        refuse(5, at)
    energy, = numbers(at, fields, 1, ANY)
    at, fields = the_next(rows)
    if fields[0] != b"spins":
        refuse(4, at)
    spins = []
    for place, field in enumerate(fields[1:], 1):
        if number(field) not in (1, -1):
            refuse(3, at, place)
        spins.append(number(field))
    loops = []
    while True:
        at, fields = the_next(rows)
        if fields[0] == b"end":
            if len(fields) > 1:
                refuse(5, at)
            return energy, spins, loops
        if fields[0] != b"loop":
            refuse(4, at)
        if len(fields) == 1:
            refuse(5, at)
        y, *bonds = numbers(at, fields, 1, lambda place: ANY(place) if place == 1 else (0, INDEX))
        loops.append((y, bonds))


def euler(n, bonds, rotation):
    """Spins minus bonds plus faces, less two for each component but one."""
    behind = {d: around[(place + 1) % len(around)] for around in rotation for place, d in enumerate(around)}
    seen, faces = set(), sum(not around for around in rotation)
    for d in range(2 * len(bonds)):
        faces += d not in seen
        while d not in seen:
            seen.add(d)
            d = behind[d ^ 1]
    name = list(range(n))

    def root(i):
        while name[i] != i:
            i = name[i]
        return i
    for u, v, _ in bonds:
        name[root(u)] = root(v)
    return n - len(bonds) + faces - 2 * (len({root(i) for i in range(n)}) - 1)


def verdict(read, stated):
    """The line of `check`."""
    (n, bonds, _, _), (energy, spins, loops) = read, stated
    if len(spins) != n:
        return f"no,1,{len(spins)}"
    found = -sum(j * spins[u] * spins[v] for u, v, j in bonds)
    if found != energy:
        return f"no,2,{found}"
    for index, (y, loop) in enumerate(loops):
        if y < 1 or not loop or any(a >= b for a, b in zip(loop, loop[1:])) or loop[-1] >= len(bonds):
            return f"no,3,{index}"
    for index, (y, loop) in enumerate(loops):
        ends = [bonds[k][side] for k in loop for side in (0, 1)]
        odd = [i for i in range(n) if ends.count(i) % 2]
        if odd:
            return f"no,4,{index},{odd[0]}"
    for index, (y, loop) in enumerate(loops):
        if sum(bonds[k][2] < 0 for k in loop) % 2 == 0:
            return f"no,5,{index}"
    for k, (_, _, j) in enumerate(bonds):
        load = sum(y for y, loop in loops if k in loop)
        if load > 2 * abs(j):
            return f"no,6,{k},{load}"
    total, wanted = sum(y for y, _ in loops), energy + sum(abs(j) for _, _, j in bonds)
    return "yes" if total == wanted else f"no,7,{total},{wanted}"


def answer(command, text):
    """The line of a refusal or of a verdict; for `energy` the least energy of an instance of few spins,
    with the instance. Only that a text is JSON is looked at, and taken for none that is right."""
    bare = text
    while bare.startswith(MARK):
        bare = bare[3:]
    if command != "check" and bare.lstrip(b" \t\r\n").startswith(b"{"):
        return "refused,18", None
    try:
        rows = kept(text)
        read = instance(rows)
        if command == "check":
            stated = result(rows)
        trailing = next(rows, None)
        if trailing:
            refuse(12, trailing[0])
        if command == "check":
            return verdict(read, stated), None
        n, bonds, rotation, _ = read
        if sum(abs(j) for _, _, j in bonds) > SUM:
            refuse(13, sum(abs(j) for _, _, j in bonds))
        if euler(n, bonds, rotation) != 2:
            refuse(15, euler(n, bonds, rotation))
    except Refused as line:
        return str(line), None
    least = min(-sum(j * s[u] * s[v] for u, v, j in bonds) for s in itertools.product((1, -1), repeat=n))
    return f"energy,{least}", read
