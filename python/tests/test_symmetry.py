"""Symmetries of lattices: an image has the same spans and energies, and its lists are those of the layout, permuted."""

from __future__ import annotations

from itertools import combinations

import pytest
import sidb
from conftest import sites
from sidb import symmetry
from sidb.symmetry import Symmetry, easiest, flipped, mirrored, turned

LATTICES = [sidb.SILICON, (400, 0, 0, 400, 200, 200), (384, 0, 100, 700, 50, 225), (300, 100, -100, 300, 0, 150)]


def distances(layout: sidb.Layout) -> list[int]:
    """The squared distances of all pairs of places, in (10^-2 Å)², sorted."""
    at = [layout.lattice.position(place) for place in (*layout.sites, *(fix.place for fix in layout.fixed))]
    return sorted((x - u) ** 2 + (y - v) ** 2 for (x, y), (u, v) in combinations(at, 2))


@pytest.mark.parametrize("lattice", LATTICES)
def test_symmetries_are_those_that_keep_distances(lattice: tuple[int, ...]) -> None:
    layout = sidb.Layout([(0, 0, 0), (3, 1, 1), (5, 2, 0), (1, 7, 1)], [(2, -4, 0, 1)], lattice)  # type: ignore[arg-type]
    kept = symmetry.symmetries(layout)
    for swaps in (False, True):
        for columns in (1, -1):
            for rows in (1, -1):
                for flips in (False, True):
                    one = Symmetry(swaps, columns, rows, flips)
                    assert (distances(one.layout(layout)) == distances(layout)) == (one in kept), one


def test_numbers_of_symmetries() -> None:
    assert len(symmetry.symmetries(sites("or_gate"))) == 4
    square = sidb.Layout([(0, 0, 0), (3, 1, 0)], lattice=(400, 0, 0, 400, 0, 200))  # type: ignore[arg-type]
    assert len(symmetry.symmetries(square)) == 8  # all dots at the same atom: a square's
    assert len(symmetry.symmetries(sidb.Layout([(0, 0, 0), (1, 0, 1)], lattice=(384, 0, 100, 700, 50, 225)))) == 2  # type: ignore[arg-type]


def test_each_is_undone_by_itself() -> None:
    layout = sites("or_gate_01")
    for image in (mirrored, flipped, turned):
        assert image(layout) != layout and image(image(layout)) == layout
    assert mirrored(flipped(layout)) == turned(layout)
    assert mirrored(sidb.Layout([(3, 1, 1)])).sites == ((-3, 1, 1),)
    assert flipped(sidb.Layout([(3, 1, 1)])).sites == ((3, -1, 0),)


def test_map_that_the_lattice_does_not_keep() -> None:
    with pytest.raises(sidb.ValueFault, match="not kept"):
        mirrored(sidb.Layout([(0, 0, 0)], lattice=(384, 0, 100, 700, 50, 225)))  # type: ignore[arg-type]


@pytest.mark.parametrize("image", [mirrored, flipped, turned])
@pytest.mark.parametrize("name", ["or_gate_01", "wire_end", "far_square"])
def test_image_has_the_same_spans_and_energies(image, name: str) -> None:  # type: ignore[no-untyped-def]
    layout = sites(name)
    own, other = layout.ground(), image(layout).ground()
    assert layout.potentials().classes == image(layout).potentials().classes
    assert [e.energy for e in own.entries] == [e.energy for e in other.entries]
    assert [sorted(e.charges) for e in own.entries] == [sorted(e.charges) for e in other.entries]


@pytest.mark.parametrize("name", ["or_gate_01", "wire_end", "far_pairs", "far_square", "three_neighbours"])
def test_answer_by_the_easiest_image_is_the_layouts_own(name: str) -> None:
    layout = sites(name)
    own, found = layout.ground(), easiest(layout)
    assert found.answer.layout is layout
    assert [(e.charges, e.mark.kind, e.energy) for e in found.answer.entries] == [(e.charges, e.mark.kind, e.energy) for e in own.entries]


def test_marks_are_brought_back() -> None:
    """Two pairs far apart, and their image in a mirror, whose site k is the layout's site 3 - k."""
    layout = sites("far_pairs")
    image = mirrored(layout).ground().entries
    back = symmetry.entries_back(image, [3, 2, 1, 0])
    assert [e.charges for e in back] == ["-0-0", "-00-", "0--0", "0-0-"]
    for entry in back:  # the hop inside the right pair, from its negative to its neutral dot
        assert {entry.mark.start, entry.mark.end} == {2, 3}
        assert entry.charges[entry.mark.start] == "-" and entry.mark.slack == (-1, 1)


def test_rivals_are_brought_back() -> None:
    image = flipped(sites("far_square")).ground().entries
    back = symmetry.entries_back(image, [2, 3, 0, 1])
    assert [(e.charges, e.mark.entry) for e in back] == [("-00-", 1), ("0--0", 0)]


def test_easiest_image_of_a_gate(inverter: sidb.Gate) -> None:
    found = easiest(inverter, exact=True)
    assert found.answer.works and found.answer.gate is inverter
    assert [p.entries[0].charges for p in found.answer.patterns] == [p.entries[0].charges for p in inverter.truth().patterns]
    assert found.nodes == 5  # the hardest pattern has five nodes: with a limit of four it is refused
    with pytest.raises(sidb.BudgetFault):
        inverter.truth(limit=4)


def test_image_is_answered_where_the_layout_is_refused() -> None:
    """A wire of 16 dots with a row of 8 neighbours at its right end: the row is easier where it comes first."""
    places = [(8 * (k // 2) + 2 * (k % 2), 0, 0) for k in range(16)] + [(70 + k, 0, 0) for k in range(8)]
    layout = sidb.Layout(places, name="row at the right")  # type: ignore[arg-type]
    with pytest.raises(sidb.BudgetFault):
        layout.ground(limit=10_000)
    found = easiest(layout, limit=10_000, exact=True)
    assert found.symmetry.columns == -1 and found.images == 2
    own = layout.ground(limit=1_000_000)
    assert [(e.charges, e.energy) for e in found.answer.entries] == [(e.charges, e.energy) for e in own.entries]
    assert mirrored(layout).ground(limit=found.nodes).entries
    with pytest.raises(sidb.BudgetFault):
        mirrored(layout).ground(limit=found.nodes - 1)


def test_no_image_within_the_limit() -> None:
    with pytest.raises(sidb.BudgetFault, match="None of 1 images"):
        easiest(sites("wire"), limit=122)
    assert easiest(sites("wire"), limit=123, exact=True).nodes == 123
