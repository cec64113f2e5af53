"""What if a dot sits a place off, or a charged defect lies near? Each verdict is the program's, on a changed gate.

A line here is a line of atoms: the first atoms of a dimer row, or the second ones; line 2m + l. A place up to ``by``
away is at most so many columns and so many lines off.
"""

from __future__ import annotations

import random
from collections.abc import Iterable, Iterator, Sequence
from dataclasses import dataclass
from pathlib import Path
from typing import Any

from .answers import Row
from .errors import ValueFault
from .layout import Fixed, Gate, Lattice, Layout, Place, place_of
from .parameters import Parameters, whole_of
from .trials import IN_WORDS, Outcome, Search, Study, Tally, nanometres, worst_of

#: The most fixed charges that the program takes.
MOST_FIXED = 8


@dataclass(frozen=True)
class Move:
    """A dot (its number in the gate's layout) at another place."""

    site: int
    place: Place


@dataclass(frozen=True)
class Displaced:
    """A gate with some dots moved, and what came of it."""

    moves: tuple[Move, ...]
    outcome: Outcome

    def row(self) -> Row:
        """Its columns for CSV."""
        moved = " ".join(f"{move.site}:{move.place.n},{move.place.m},{move.place.l}" for move in self.moves)
        return {"moved": moved, "count": len(self.moves), **self.outcome.row()}


@dataclass(frozen=True)
class Displacements(Study):
    """The verdicts on a gate whose dots are moved: ``singles`` one at a time, each to each free place up to ``by``
    away; ``samples`` so many at once, drawn with ``seed``: the same seed draws the same."""

    gate: Gate
    parameters: Parameters
    by: int
    singles: tuple[Displaced, ...]
    samples: tuple[Displaced, ...] = ()
    seed: int = 0
    title = "Dots out of place"

    @property
    def tally(self) -> Tally:
        """Of the dots moved one at a time."""
        return Tally.of(trial.outcome.verdict for trial in self.singles)

    @property
    def sample_tally(self) -> Tally:
        """Of the samples."""
        return Tally.of(trial.outcome.verdict for trial in self.samples)

    def worst(self) -> dict[int, str]:
        """For each dot that was moved alone the worst verdict."""
        found: dict[int, list[str]] = {}
        for trial in self.singles:
            found.setdefault(trial.moves[0].site, []).append(trial.outcome.verdict)
        return {site: worst_of(verdicts) for site, verdicts in found.items()}

    def sentences(self) -> list[str]:
        """What was found."""
        away = f"up to {self.by} column{'s'[:self.by - 1]} and {self.by} line{'s'[:self.by - 1]} of atoms away"
        said = [f"Each dot was moved alone to each free place {away}: {self.tally.in_words()}"]
        breaking = [site for site, verdict in self.worst().items() if verdict == "fails"]
        if breaking:
            said.append(f"Dots that break the gate at some place: {', '.join(map(str, breaking))}.")
        if self.samples:
            moved = len(self.samples[0].moves)
            said.append(f"Samples of {moved} dots moved at once (seed {self.seed}): {self.sample_tally.in_words()}")
        return said

    def rows(self) -> list[Row]:
        """A row a trial."""
        return [trial.row() for trial in (*self.singles, *self.samples)]

    def draw(self, path: str | Path | None = None, **options: Any) -> Any:
        """Each dot by its worst verdict, and each place that was tried by its own."""
        from . import study_pictures

        return study_pictures.draw_displacements(self, path, **options)


def displacements(
    gate: Gate,
    by: int = 1,
    *,
    sites: Iterable[int] | None = None,
    samples: int = 0,
    at_once: int = 2,
    seed: int = 0,
    **search: Any,
) -> Displacements:
    """Whether a gate still works with dots out of place.

    ``sites``: the dots that are moved (None: all; fixed charges stay). ``samples``: how many layouts with
    ``at_once`` dots moved together, drawn with ``seed``. The others are those of ``Search``.
    """
    asked = Search(**search)
    moved = _known_sites(gate, sites)
    whole_of(by, "by"), whole_of(samples, "samples"), whole_of(seed, "seed")
    single = [(Move(site, place),) for site in moved for place in places_near(gate.layout, site, by)]
    drawn = list(_drawn(gate, moved, by, samples, at_once, seed)) if samples else []
    trials = _displaced(gate, [*single, *drawn], asked)
    return Displacements(gate, asked.of(gate), by, trials[: len(single)], trials[len(single) :], seed)


def _known_sites(gate: Gate, sites: Iterable[int] | None) -> list[int]:
    count = len(gate.layout.sites)
    known = list(range(count)) if sites is None else [whole_of(site, "The number of a dot") for site in sites]
    for site in known:
        if not 0 <= site < count:
            raise ValueFault(f"There is no dot {site}: the gate has {count}, counted from 0.")
    return known


def places_near(layout: Layout, site: int, by: int) -> list[Place]:
    """The free places up to ``by`` columns and ``by`` lines of atoms from a dot, in row order."""
    others = layout.without(site)
    n, m, atom = layout.sites[site]
    line = 2 * m + atom
    near = (
        Place(column, at // 2, at % 2)
        for at in range(line - by, line + by + 1)
        for column in range(n - by, n + by + 1)
        if (column, at) != (n, line)
    )
    return [place for place in near if others.is_free(place)]


def _drawn(gate: Gate, sites: Sequence[int], by: int, count: int, at_once: int, seed: int) -> Iterator[tuple[Move, ...]]:
    """Samples: each moves so many different dots, one after another, each to a place free by then."""
    if not 1 <= whole_of(at_once, "at_once") <= len(sites):
        raise ValueFault(f"at_once is {at_once}; it has to be 1 to {len(sites)}, the number of dots that may be moved.")
    numbers = random.Random(seed)
    for _ in range(count):
        left, layout, moves = list(sites), gate.layout, []
        for _ in range(at_once):
            site = left.pop(int(numbers.random() * len(left)))
            at = layout.number_of(gate.layout.sites[site])
            near = places_near(layout, at, by)
            if near:
                place = near[int(numbers.random() * len(near))]
                layout = layout.moved(at, place)
                moves.append(Move(site, place))
        yield tuple(sorted(moves, key=lambda move: move.site))


def moved_gate(gate: Gate, moves: Iterable[Move]) -> Gate:
    """The gate with these dots at their other places; its pairs follow them."""
    now = {gate.layout.sites[move.site]: move.place for move in moves}
    layout = gate.layout.with_sites(now.get(place, place) for place in gate.layout.sites)
    return gate.on(layout, lambda place: now.get(place, place))


def _displaced(gate: Gate, tried: Sequence[tuple[Move, ...]], search: Search) -> tuple[Displaced, ...]:
    points = search.points([moved_gate(gate, moves) for moves in tried], "truth")
    return tuple(Displaced(moves, Outcome.of(point)) for moves, point in zip(tried, points))


@dataclass(frozen=True)
class Region:
    """The places of some columns and dimer rows, first and last among them; of these every ``step``-th column and
    every ``step``-th line of atoms."""

    columns: tuple[int, int]
    rows: tuple[int, int]
    step: int = 1

    def __post_init__(self) -> None:
        if self.step < 1 or self.columns[0] > self.columns[1] or self.rows[0] > self.rows[1]:
            raise ValueFault(f"A region has a first and a last column and row, and a step of at least 1, not {self}.")

    @classmethod
    def around(cls, layout: Layout, columns: int = 8, rows: int = 4, step: int = 1) -> Region:
        """From so many columns and rows before the first dot to so many behind the last."""
        ns, ms = [site.n for site in layout.sites], [site.m for site in layout.sites]
        if not ns:
            raise ValueFault("A layout without dots has no region round it.")
        return cls((min(ns) - columns, max(ns) + columns), (min(ms) - rows, max(ms) + rows), step)

    def places(self) -> list[Place]:
        """All of its places, in row order."""
        lines = range(2 * self.rows[0], 2 * self.rows[1] + 2, self.step)
        columns = range(self.columns[0], self.columns[1] + 1, self.step)
        return [Place(n, line // 2, line % 2) for line in lines for n in columns]

    def holds_up_to(self, layout: Layout) -> int | None:
        """The squared distance, in (10^-2 Å)^2, of the nearest place outside from any dot: each place nearer than
        this is in the region. None where it is not known: with a step, or on a lattice at a slant."""
        ax, ay, bx, by, cx, cy = layout.lattice
        if self.step != 1 or ay or bx or cx:
            return None
        lines = [y for m in (self.rows[0] - 1, self.rows[1] + 1) for y in (m * by, m * by + cy)]
        sides = [n * ax for n in (self.columns[0] - 1, self.columns[1] + 1)]
        dots = [layout.position(site) for site in range(len(layout.sites))]
        return min([abs(x - side) for x, _ in dots for side in sides] + [abs(y - end) for _, y in dots for end in lines]) ** 2


@dataclass(frozen=True)
class Defect:
    """A place of a fixed charge, its squared distance from the nearest dot in (10^-2 Å)^2, and what came of it."""

    place: Place
    squared_distance: int
    outcome: Outcome

    def row(self) -> Row:
        """Its columns for CSV; the distance in nm, rounded."""
        n, m, atom = self.place
        distance = f"{nanometres(self.squared_distance):.4f}"
        return {"n": n, "m": m, "l": atom, "distance_nm": distance, **self.outcome.row()}


def _squared_distance(trial: Defect) -> int:
    return trial.squared_distance


@dataclass(frozen=True)
class Defects(Study):
    """The verdicts on a gate with one more fixed charge, at each of some places."""

    gate: Gate
    parameters: Parameters
    charge: int
    region: Region | None
    trials: tuple[Defect, ...]
    title = "A charged defect near the gate"

    @property
    def tally(self) -> Tally:
        """Of all places."""
        return Tally.of(trial.outcome.verdict for trial in self.trials)

    @property
    def last_bad(self) -> Defect | None:
        """The place farthest from the dots at which the gate is not proved to work."""
        bad = [trial for trial in self.trials if trial.outcome.verdict != "works"]
        return max(bad, key=_squared_distance) if bad else None

    @property
    def clearance(self) -> int | None:
        """The least squared distance from the nearest dot, in (10^-2 Å)^2, of a place from which on the gate works
        at each place that was tried; None where it does not work at a farthest one."""
        bad = self.last_bad
        beyond = -1 if bad is None else bad.squared_distance
        return min((t.squared_distance for t in self.trials if t.squared_distance > beyond), default=None)

    @property
    def complete_to(self) -> int | None:
        """Each place nearer to a dot than this squared distance was tried; None where that is not known."""
        return self.region.holds_up_to(self.gate.layout) if self.region else None

    def sentences(self) -> list[str]:
        """What was found."""
        said = [
            f"A fixed charge of {self.charge:+d} stood at each of {len(self.trials)} free places, one at a time: "
            f"{self.tally.in_words()}"
        ]
        bad, clear = self.last_bad, self.clearance
        if clear is None:
            said.append("The gate does not work at a farthest of them: take a larger region.")
        elif bad is None:
            said.append("The gate works at all of them.")
        else:
            far = nanometres(bad.squared_distance)
            said.append(
                f"At each place that is {nanometres(clear):.4f} nm or more from the nearest dot the gate works; at a "
                f"place {far:.4f} nm away it {IN_WORDS[bad.outcome.verdict]}."
            )
        return [*said, self._reach()]

    def _reach(self) -> str:
        reach = self.complete_to
        if reach is None:
            return "Nothing is said of places that were not tried."
        return f"Each free place nearer than {nanometres(reach):.2f} nm to a dot was tried; nothing is said of places beyond."

    def rows(self) -> list[Row]:
        """A row a place."""
        return [trial.row() for trial in self.trials]

    def draw(self, path: str | Path | None = None, **options: Any) -> Any:
        """A map of the places by their verdicts, and the dots."""
        from . import study_pictures

        return study_pictures.draw_defects(self, path, **options)


def defects(
    gate: Gate, charge: int = -1, region: Region | Iterable[Iterable[int]] | None = None, **search: Any
) -> Defects:
    """Whether a gate still works with a fixed charge (-3 to 3, not 0) at each free place of a region.

    ``region``: a ``Region``, or places (n, m, l); None for 8 columns and 4 dimer rows round the dots. A place where
    a dot or a fixed charge stands is left out, the dots of the inputs among them. The others are those of ``Search``.
    """
    asked = Search(**search)
    layout = gate.layout
    if len(layout.fixed) >= MOST_FIXED:
        raise ValueFault(f"The layout has {len(layout.fixed)} fixed charges, the most that the program takes.")
    if whole_of(charge, "charge") == 0 or abs(charge) > 3:
        raise ValueFault(f"A fixed charge is -3 to 3 and not 0, and not {charge}.")
    known = Region.around(layout) if region is None else region
    tried = known.places() if isinstance(known, Region) else [place_of(place) for place in known]
    free = [place for place in tried if layout.is_free(place)]
    points = asked.points([gate.with_fixed(Fixed(*place, charge)) for place in free], "truth")
    found = (
        Defect(place, _nearest(layout.lattice, layout.sites, place), Outcome.of(point)) for place, point in zip(free, points)
    )
    return Defects(gate, asked.of(gate), charge, known if isinstance(known, Region) else None, tuple(found))


def _nearest(lattice: Lattice, sites: Sequence[Place], place: Place) -> int:
    """The squared distance from a place to the nearest site, in (10^-2 Å)^2."""
    x, y = lattice.position(place)
    return min((x - u) ** 2 + (y - v) ** 2 for u, v in map(lattice.position, sites))
