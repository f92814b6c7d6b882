"""Where the parts of an instance lie: what the page needs to draw it, whatever its couplings."""

from typing import Any, Dict, List, Sequence

from .. import Instance, Lattice


def shape_of(given: Instance) -> Dict[str, Any]:
    """The ends of the bonds, the darts round each face, the seam; the places of the spins, None where the
    page lays them out; and how far the second first column of a cylinder is from its first, else 0."""
    places = given.places()
    ends = given.ends()
    is_round = isinstance(given, Lattice) and given.kind == "cylinder"
    return {
        "spins": given.n,
        "ends": [spin for pair in ends for spin in pair],
        "faces": faces_of(given.darts(), len(ends)),
        "seam": given.seam_bonds(),
        "places": None if places is None else [[round(x, 6), round(y, 6)] for x, y in places],
        "period": given.cols if is_round and isinstance(given, Lattice) else 0,
    }


def faces_of(rotation: Sequence[Sequence[int]], bonds: int) -> List[List[int]]:
    """The darts round each face, in the library's order of the faces: by their least darts, and behind
    these an empty face for each spin without a bond.

    >>> faces_of([[0], [2, 1], [3]], 2)
    [[0, 2, 3, 1]]
    """
    after = [0] * (2 * bonds)
    for own in rotation:
        for place, dart in enumerate(own):
            after[dart ^ 1] = own[(place + 1) % len(own)]
    seen, faces = [False] * len(after), []
    for first in range(len(after)):
        face, dart = [], first
        while not seen[dart]:
            seen[dart] = True
            face.append(dart)
            dart = after[dart]
        if face:
            faces.append(face)
    return faces + [[] for own in rotation if not own]
