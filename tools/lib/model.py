"""The model in plain arithmetic, to judge answers of the program without it: instances as the
program reads them, energies, and whether loops prove an energy; weighted graphs, their least joins,
and whether cuts prove one."""
import random


class Instance:
    """Spins 0 to n - 1, and bonds (u, v, j)."""

    def __init__(self, text, n, bonds):
        self.text, self.n, self.bonds = text, n, bonds

    def energy(self, spins):
        return -sum(j * spins[u] * spins[v] for u, v, j in self.bonds)

    def weight(self):
        return sum(abs(j) for _, _, j in self.bonds)


def lattice_ends(kind, rows, cols):
    """The ends of the bonds of a lattice, in the order in which their couplings stand."""
    spin = lambda r, c: r * cols + c % cols
    across = [(spin(r, c), spin(r, c + 1)) for r in range(rows)
              for c in range(cols if kind == "cylinder" else cols - 1)]
    down = [(spin(r, c), spin(r + 1, c)) for r in range(rows - 1) for c in range(cols)
            if kind != "hexagonal" or (r + c) % 2 == 0]
    slant = [(spin(r, c), spin(r + 1, c + 1)) for r in range(rows - 1) for c in range(cols - 1)]
    return across + down + (slant if kind == "triangular" else [])


def bond_count(kind, rows, cols):
    """How many bonds a lattice has, of a kind but the hexagonal one."""
    grid = rows * (cols if kind == "cylinder" else cols - 1) + (rows - 1) * cols
    return grid + (rows - 1) * (cols - 1) * (kind == "triangular")


def lattice(kind, rows, cols, couplings):
    ends = lattice_ends(kind, rows, cols)
    values = [couplings(k) for k in range(len(ends))]
    line = ",".join(map(str, values)) + "\n" if values else ""
    text = f"{kind},{rows},{cols}\n{line}end\n"
    return Instance(text, rows * cols, [(u, v, j) for (u, v), j in zip(ends, values)])


class Drawing:
    """A graph drawn on a sphere, component by component: the ends of the bonds, and for each spin its
    darts in cyclic order. A corner is a spin and a place in its list."""

    def __init__(self, draw):
        self.draw, self.ends, self.rotation = draw, [], []

    def spin(self):
        self.rotation.append([])
        return len(self.rotation) - 1

    def corner(self, spins):
        spin = self.draw.choice(spins)
        return spin, self.draw.randint(0, len(self.rotation[spin]))

    def next_corner(self, corner):
        """The corner that follows on the boundary of the same face."""
        spin, place = corner
        darts = self.rotation[spin]
        if not darts:
            return corner
        dart = darts[place % len(darts)]
        other = self.ends[dart // 2][1 - dart % 2]
        return other, self.rotation[other].index(dart ^ 1) + 1

    def join(self, first, second):
        """A bond between two corners of one face, at different spins."""
        bond = len(self.ends)
        self.ends.append((first[0], second[0]))
        self.rotation[first[0]].insert(first[1], 2 * bond)
        self.rotation[second[0]].insert(second[1], 2 * bond + 1)

    def tree(self, count):
        spins = [self.spin()]
        for _ in range(count - 1):
            corner = self.corner(spins)
            spins.append(self.spin())
            self.join(corner, (spins[-1], 0))
        return spins

    def chord(self, spins):
        """One more bond across a face, unless the walk along it comes back to the same spin."""
        corner = self.corner(spins)
        other = corner
        for _ in range(self.draw.randint(1, 8)):
            other = self.next_corner(other)
        if other[0] != corner[0]:
            self.join(corner, other)

    def ring(self, count):
        spins = [self.spin() for _ in range(count)]
        for k, spin in enumerate(spins[1:]):
            self.join((spins[k], len(self.rotation[spins[k]])), (spin, 0))
        if count > 2:
            self.join((spins[-1], 1), (spins[0], 0))
        return spins

    def instance(self, couplings):
        """The drawing with its spins and bonds numbered anew and its cyclic lists turned."""
        n, m = len(self.rotation), len(self.ends)
        spins, bonds = self.draw.sample(range(n), n), self.draw.sample(range(m), m)
        joined = [None] * m
        for k, (u, v) in enumerate(self.ends):
            joined[bonds[k]] = (spins[u], spins[v], couplings(k))
        lines = [f"general,{n}"] + [f"bond,{u},{v},{j}" for u, v, j in joined]
        for spin, darts in enumerate(self.rotation):
            turn = self.draw.randint(0, len(darts))
            listed = [2 * bonds[d // 2] + d % 2 for d in darts[turn:] + darts[:turn]]
            if listed:
                lines.append(",".join(["rot", str(spins[spin])] + [str(d) for d in listed]))
        return Instance("\n".join(lines + ["end"]) + "\n", n, joined)


def general(draw, most, couplings):
    """Any planar graph of at most so many spins: a tree, a ring, or a tree with chords, perhaps several of them."""
    drawing = Drawing(draw)
    left = draw.randint(1, most)
    while left > 0:
        count = left if draw.random() < 0.6 else draw.randint(1, left)
        shape = draw.choice(["tree", "ring", "chords", "chords", "chords"])
        spins = drawing.ring(count) if shape == "ring" else drawing.tree(count)
        for _ in range(draw.randint(1, 2 * count) if shape == "chords" else 0):
            drawing.chord(spins)
        left -= count
    return drawing.instance(couplings)


LAWS = {
    "one size": lambda draw: lambda k: draw.choice([1, -1]),
    "with zeros": lambda draw: lambda k: draw.choice([1, 0, -1]),
    "with ties": lambda draw: lambda k: draw.randint(-3, 3),
    "drawn": lambda draw: lambda k: draw.randint(-2**20, 2**20),
    "large": lambda draw: lambda k: draw.randint(-2**30, 2**30),
    "all -1": lambda draw: lambda k: -1,
}


def drawn(draw, most):
    """A lattice with at most this many rows and columns, of any kind and law."""
    kind = draw.choice(["square", "triangular", "hexagonal", "cylinder"])
    least = {"hexagonal": 2, "cylinder": 3}.get(kind, 1)
    rows, cols = draw.randint(1, most), draw.randint(least, max(most, least))
    return lattice(kind, rows, cols, LAWS[draw.choice(list(LAWS))](draw))


def least_energy(instance):
    """The least energy over all assignments, each of which differs from the one before by one spin."""
    fields = [[] for _ in range(instance.n)]
    for u, v, j in instance.bonds:
        fields[u].append((v, j))
        fields[v].append((u, j))
    spins = [1] * instance.n
    energy = least = instance.energy(spins)
    for step in range(1, 1 << (instance.n - 1)):
        spin = (step & -step).bit_length() - 1
        energy += 2 * spins[spin] * sum(j * spins[other] for other, j in fields[spin])
        spins[spin] = -spins[spin]
        least = min(least, energy)
    return least


def bond_costs(instance):
    """For each bond how far the least energies lie apart with its spins alike and with them unlike."""
    like, unlike = [None] * len(instance.bonds), [None] * len(instance.bonds)
    for signs in range(1 << (instance.n - 1)):
        spins = [1 if (signs >> spin) & 1 == 0 else -1 for spin in range(instance.n)]
        energy = instance.energy(spins)
        for k, (u, v, _) in enumerate(instance.bonds):
            least = like if spins[u] == spins[v] else unlike
            if least[k] is None or energy < least[k]:
                least[k] = energy
    return [abs(a - b) for a, b in zip(like, unlike)]


def rigid_clusters(instance, costs):
    """For each spin the least spin that bonds of a cost above 0 lead to."""
    names = list(range(instance.n))
    for _ in range(instance.n):
        for (u, v, _), cost in zip(instance.bonds, costs):
            if cost > 0:
                names[u] = names[v] = min(names[u], names[v])
    return names


class Result:
    """What a result states: an energy, spins and weighted loops."""

    def __init__(self, energy, spins, loops):
        self.energy, self.spins, self.loops = energy, spins, loops

    def text(self):
        lines = [f"energy,{self.energy}", ",".join(["spins"] + [str(s) for s in self.spins])]
        lines += [",".join(["loop", str(y)] + [str(b) for b in bonds]) for y, bonds in self.loops]
        return "\n".join(lines + ["end"]) + "\n"


def result(text):
    """The result that `ground` printed."""
    energy, spins, loops = None, [], []
    for line in text.splitlines():
        word, *numbers = line.split(",")
        numbers = [int(x) for x in numbers]
        if word == "energy":
            energy = numbers[0]
        elif word == "spins":
            spins = numbers
        elif word == "loop":
            loops.append((numbers[0], numbers[1:]))
    return Result(energy, spins, loops)


def is_frustrated_loop(instance, bonds):
    if not bonds or any(a >= b for a, b in zip(bonds, bonds[1:])) or bonds[0] < 0 or bonds[-1] >= len(instance.bonds):
        return False
    odd = set()
    for k in bonds:
        odd ^= {instance.bonds[k][0]}
        odd ^= {instance.bonds[k][1]}
    return not odd and sum(instance.bonds[k][2] < 0 for k in bonds) % 2 == 1


def proves(instance, stated):
    """Whether the loops prove that the spins have the energy, and no assignment less."""
    if len(stated.spins) != instance.n or any(s not in (1, -1) for s in stated.spins):
        return False
    if instance.energy(stated.spins) != stated.energy:
        return False
    load = [0] * len(instance.bonds)
    for y, bonds in stated.loops:
        if y < 1 or not is_frustrated_loop(instance, bonds):
            return False
        for k in bonds:
            load[k] += y
    if any(l > 2 * abs(j) for l, (_, _, j) in zip(load, instance.bonds)):
        return False
    return sum(y for y, _ in stated.loops) == stated.energy + instance.weight()


class Web:
    """Nodes 0 to n - 1, weighted edges (a, b, w), and terminals."""

    def __init__(self, n, edges, terminals):
        self.n, self.edges, self.terminals = n, edges, terminals
        lines = [f"graph,{n}"] + [f"edge,{a},{b},{w}" for a, b, w in edges]
        lines += [",".join(map(str, ["term"] + terminals))] if terminals else []
        self.text = "\n".join(lines + ["end"]) + "\n"


WEIGHTS = {
    "all 0": lambda draw: lambda k: 0,
    "all 1": lambda draw: lambda k: 1,
    "0 and 1": lambda draw: lambda k: draw.randint(0, 1),
    "with ties": lambda draw: lambda k: draw.randint(0, 4),
    "rising": lambda draw: lambda k: k,
    "powers of 2": lambda draw: lambda k: 2**draw.randint(0, 31),
    "drawn": lambda draw: lambda k: draw.randint(0, 2**20),
}


def web(draw, most, weights):
    """A connected graph of at most so many nodes: a tree and further edges, perhaps all at few nodes,
    some of them parallel or from a node to itself."""
    n = draw.randint(1, most)
    hubs = draw.choice([n, n, 1, 2])
    ends = [(draw.randrange(min(x, hubs)), x) for x in range(1, n)]
    ends += [(draw.randrange(n), draw.randrange(min(n, hubs))) for _ in range(draw.randint(0, 2 * n))]
    share = draw.choice([0.3, 0.6, 1])
    terminals = [x for x in range(n) if draw.random() < share]
    return Web(n, [(a, b, weights(k)) for k, (a, b) in enumerate(ends)], terminals[len(terminals) % 2:])


def least_join(given):
    """The least weight of a join, by the sets of nodes that the edges so far can meet oddly."""
    least = {0: 0}
    for a, b, w in given.edges:
        turn = 1 << a ^ 1 << b
        for met, weight in [(met ^ turn, weight + w) for met, weight in least.items()]:
            least[met] = min(weight, least.get(met, weight))
    return least[sum(1 << x for x in given.terminals)]


def is_edge_set(given, edges):
    return all(a < b for a, b in zip(edges, edges[1:])) and all(0 <= k < len(given.edges) for k in edges)


def meets_oddly(given, edges):
    odd = set()
    for k in edges:
        odd ^= {given.edges[k][0]}
        odd ^= {given.edges[k][1]}
    return odd


def is_odd_cut(given, edges):
    """Whether these are all edges between some set of nodes with an odd number of terminals and the others."""
    crossed, side, around = set(edges), {0: False}, [[] for _ in range(given.n)]
    for k, (a, b, _) in enumerate(given.edges):
        around[a].append((b, k in crossed))
        around[b].append((a, k in crossed))
    waiting = [0]
    while waiting:
        node = waiting.pop()
        for other, crosses in around[node]:
            if other not in side:
                side[other] = side[node] != crosses
                waiting.append(other)
            elif (side[other] != side[node]) != crosses:
                return False
    return sum(side[x] for x in given.terminals) % 2 == 1


def proves_join(given, text):
    """Whether what `tjoin` printed is a join, with cuts that prove that none weighs less; and its weight."""
    weight, edges, cuts = None, [], []
    for line in text.splitlines():
        word, *numbers = line.split(",")
        numbers = [int(x) for x in numbers]
        if word == "weight":
            weight = numbers[0]
        elif word == "edges":
            edges = numbers
        elif word == "cut":
            cuts.append((numbers[0], numbers[1:]))
    if not is_edge_set(given, edges) or meets_oddly(given, edges) != set(given.terminals):
        return False, weight
    load = [0] * len(given.edges)
    for y, cut in cuts:
        if y < 1 or not is_edge_set(given, cut) or not is_odd_cut(given, cut):
            return False, weight
        for k in cut:
            load[k] += y
    if any(l > 2 * w for l, (_, _, w) in zip(load, given.edges)):
        return False, weight
    return sum(y for y, _ in cuts) == 2 * weight == 2 * sum(given.edges[k][2] for k in edges), weight


def generator(seed):
    return random.Random(seed)
