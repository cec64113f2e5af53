"""The exact symmetries of a lattice, and the easiest of a layout's images under them.

A layout and its image have the same distances, so the same classes, spans and energies: the answer is the same list,
permuted. But sites are numbered in row order, and by this order goes the search, so that the node count is another:
a dense part is easier where it comes first. So where the limit refuses a layout, it may answer its image.
"""

from __future__ import annotations

from collections.abc import Iterable
from dataclasses import dataclass, replace
from itertools import product
from typing import Any

from . import tasks
from .answers import Entry, GroundAnswer, Mark, Pattern
from .errors import BudgetFault, ValueFault
from .layout import Fixed, Gate, Lattice, Layout, Place

#: The most nodes that the program takes as a limit.
MOST_NODES = 10_000_000
_LEAST_LIMIT = 1_000


@dataclass(frozen=True)
class Symmetry:
    """A map of places that keeps all distances: columns and rows may change roles (``swaps``), each may change its
    sign, and the two atoms of each dimer may change places (``flips``)."""

    swaps: bool = False
    columns: int = 1
    rows: int = 1
    flips: bool = False

    def place(self, place: Place) -> Place:
        """Where it takes a place."""
        n, m = (place.m, place.n) if self.swaps else (place.n, place.m)
        return Place(self.columns * n, self.rows * m, 1 - place.l if self.flips else place.l)

    def layout(self, layout: Layout) -> Layout:
        """The image of a layout. The caller knows that it is a symmetry of the lattice."""
        fixed = (Fixed(*self.place(fix.place), fix.charge) for fix in layout.fixed)
        sites = (self.place(site) for site in layout.sites)
        return replace(layout, sites=tuple(sites), fixed=tuple(fixed))

    def gate(self, gate: Gate) -> Gate:
        """The image of a gate."""
        return gate.on(self.layout(gate.layout), self.place)

    def keeps(self, lattice: Lattice, one_atom: bool = False) -> bool:
        """Whether it keeps all distances on this lattice; ``one_atom``: among places of one and the same atom."""
        a, b, c = (lattice.ax, lattice.ay), (lattice.bx, lattice.by), (lattice.cx, lattice.cy)
        column, row = _times(self.columns, a), _times(self.rows, b)
        image = (row, column) if self.swaps else (column, row)
        second = _times(-1, c) if self.flips else c
        return _products((a, b) if one_atom else (a, b, c)) == _products(image if one_atom else (*image, second))


Vector = tuple[int, int]


def _times(factor: int, vector: Vector) -> Vector:
    return factor * vector[0], factor * vector[1]


def _products(vectors: tuple[Vector, ...]) -> list[int]:
    """The products of all pairs: two lists of vectors with equal ones are congruent."""
    return [u[0] * v[0] + u[1] * v[1] for u, v in product(vectors, vectors)]


#: From left to right, as in a mirror that stands upright.
MIRRORED = Symmetry(columns=-1)
#: Upside down.
FLIPPED = Symmetry(rows=-1, flips=True)
#: By half a turn, which keeps every lattice.
TURNED = Symmetry(columns=-1, rows=-1, flips=True)


def symmetries(layout: Layout) -> tuple[Symmetry, ...]:
    """All symmetries of its lattice: that which changes nothing first. On silicon's these are four."""
    atoms = {place[2] for place in (*layout.sites, *layout.fixed)}
    every = (Symmetry(*chosen) for chosen in product((False, True), (1, -1), (1, -1), (False, True)))
    one_atom = len(atoms) <= 1
    found = (symmetry for symmetry in every if symmetry.keeps(layout.lattice, one_atom))
    return tuple(symmetry for symmetry in found if not (one_atom and symmetry.flips))


def mirrored(subject: Any) -> Any:
    """The image of a layout or gate in an upright mirror: column n becomes column -n."""
    return _image(subject, MIRRORED)


def flipped(subject: Any) -> Any:
    """A layout or gate upside down: row m becomes row -m, and the atoms of a dimer change places."""
    return _image(subject, FLIPPED)


def turned(subject: Any) -> Any:
    """A layout or gate by half a turn."""
    return _image(subject, TURNED)


def _image(subject: Any, symmetry: Symmetry) -> Any:
    layout = subject.layout if isinstance(subject, Gate) else subject
    if not isinstance(layout, Layout):
        raise ValueFault(f"Images are those of a layout or a gate, and not of {type(subject).__name__}.")
    if not symmetry.keeps(layout.lattice):
        raise ValueFault(f"{layout.name or 'The layout'}: its lattice {tuple(layout.lattice)} is not kept by this map.")
    return symmetry.gate(subject) if isinstance(subject, Gate) else symmetry.layout(subject)


@dataclass(frozen=True)
class Easiest:
    """The image that has the fewest nodes, and the answer, with charges and numbers of the layout itself.

    ``nodes``: the image's node count (of a gate, that of its hardest pattern) where ``exact``, else a limit that
    answers it and none of the others. ``images``: how many different images there are.
    """

    symmetry: Symmetry
    nodes: int
    exact: bool
    images: int
    answer: Any


Answers = dict[Symmetry, Any]


def easiest(subject: Layout | Gate, limit: int = 1_000_000, exact: bool = False, **settings: Any) -> Easiest:
    """The ground list of a layout, or the truth table of a gate, by way of its easiest image.

    Tries all images at a limit that is doubled until one answers, then halves the span until one image alone is left
    (``exact``: until its node count is known). A BudgetFault where none answers at ``limit``. Further settings are
    those of ``tasks.ground``.
    """
    images = _different_images(subject)
    answers, low, high = _first_to_answer(images, min(limit, MOST_NODES), settings)
    while high - low > 1 and (exact or len(answers) > 1):
        middle = (low + high) // 2
        fewer = _answers({symmetry: images[symmetry] for symmetry in answers}, middle, settings)
        answers, low, high = (fewer, low, middle) if fewer else (answers, middle, high)
    symmetry, answer = next(iter(answers.items()))
    return Easiest(symmetry, high, high - low <= 1, len(images), _brought_back(answer, subject, symmetry))


def _different_images(subject: Layout | Gate) -> dict[Symmetry, Layout | Gate]:
    """An image for each symmetry, but of those that are shifts of one another the first alone."""
    layout = subject.layout if isinstance(subject, Gate) else subject
    seen: dict[object, tuple[Symmetry, Layout | Gate]] = {}
    for symmetry in symmetries(layout):
        image: Layout | Gate = symmetry.gate(subject) if isinstance(subject, Gate) else symmetry.layout(subject)
        seen.setdefault(_shape(image), (symmetry, image))
    return dict(seen.values())


def _shape(image: Layout | Gate) -> object:
    """What stays the same where all is shifted."""
    layout = image.layout if isinstance(image, Gate) else image
    places = [*layout.sites, *layout.fixed] or [Place(0, 0, 0)]
    shifted = layout.translated(-min(place[0] for place in places), -min(place[1] for place in places))
    return shifted.sites, shifted.fixed, (image.inputs, image.outputs) if isinstance(image, Gate) else ()


def _first_to_answer(images: dict[Symmetry, Layout | Gate], limit: int, settings: dict[str, Any]) -> tuple[Answers, int, int]:
    """The answers at the first limit that answers any, and the span in which the least node count lies."""
    low, high = 0, min(_LEAST_LIMIT, limit)
    while True:
        answers = _answers(images, high, settings)
        if answers:
            return answers, low, high
        if high == limit:
            raise BudgetFault(
                f"None of {len(images)} images has at most {limit} nodes. Give a greater limit (up to {MOST_NODES}), or "
                "leave dots out.", f"fault budget {limit}", 5,
            )  # fmt: skip
        low, high = high, min(2 * high, limit)


def _answers(images: dict[Symmetry, Layout | Gate], limit: int, settings: dict[str, Any]) -> Answers:
    found = {}
    for symmetry, image in images.items():
        task = tasks.TASKS["truth" if isinstance(image, Gate) else "ground"]
        try:
            found[symmetry] = task(image, limit=limit, **settings)
        except BudgetFault:
            continue
    return found


def _brought_back(answer: Any, subject: Any, symmetry: Symmetry) -> Any:
    """The answer to an image as one to the subject itself. The image's text stays in ``run``."""
    if isinstance(answer, GroundAnswer):
        numbers = _numbers(subject, symmetry)
        return replace(answer, layout=subject, entries=entries_back(answer.entries, numbers))
    patterns = (_pattern_back(pattern, subject, symmetry) for pattern in answer.patterns)
    return replace(answer, gate=subject, patterns=tuple(patterns))


def _pattern_back(pattern: Pattern, gate: Gate, symmetry: Symmetry) -> Pattern:
    layout = gate.layout_of(pattern.number)
    entries = entries_back(pattern.entries, _numbers(layout, symmetry))
    return replace(pattern, layout=layout, numbers=gate.numbers_of(pattern.number), entries=entries)


def _numbers(layout: Layout, symmetry: Symmetry) -> list[int]:
    """For each site of a layout its number in the image."""
    image = {place: number for number, place in enumerate(symmetry.layout(layout).sites)}
    return [image[symmetry.place(site)] for site in layout.sites]


def entries_back(entries: Iterable[Entry], numbers: list[int]) -> tuple[Entry, ...]:
    """The entries of an image as those of the layout whose site i is the image's site ``numbers[i]``, in their order.

    A mark names a comparison that some choice of the potentials breaks, as it does for the image; there may be others that
    come before it in the layout's own order.
    """
    back = {number: site for site, number in enumerate(numbers)}
    moved = [(number, "".join(e.charges[k] for k in numbers), e) for number, e in enumerate(entries)]
    moved.sort(key=lambda one: ["-0+".index(charge) for charge in one[1]])
    place = {old: new for new, (old, _, _) in enumerate(moved)}
    return tuple(replace(e, charges=charges, mark=_mark_back(e.mark, back, place)) for _, charges, e in moved)


def _mark_back(mark: Mark, site: dict[int, int], entry: dict[int, int]) -> Mark:
    at = {name: getattr(mark, name) for name in ("site", "start", "end")}
    moved = {name: None if value is None else site[value] for name, value in at.items()}
    return replace(mark, **moved, entry=None if mark.entry is None else entry[mark.entry])
