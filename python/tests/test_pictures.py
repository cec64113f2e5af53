"""Pictures: each comes as SVG and PNG, is small, is the same each time, and shows what the answer says."""

from __future__ import annotations

import xml.etree.ElementTree
from decimal import Decimal
from pathlib import Path
from typing import Any

import pytest
import sidb
from conftest import sites
from sidb import pictures
from sidb.answers import Cell, DomainAnswer, RegionAnswer, Tile


def texts_of(path: Path) -> str:
    """All texts of an SVG picture."""
    root = xml.etree.ElementTree.parse(path).getroot()
    return "\n".join("".join(element.itertext()) for element in root.iter("{http://www.w3.org/2000/svg}text"))


def answers(name: str, or_gate: sidb.Gate) -> Any:
    """An answer to draw."""
    layout = sites("or_gate_01")
    made = {
        "layout": lambda: layout,
        "gate": lambda: or_gate,
        "ground": layout.ground,
        "truth": or_gate.truth,
        "pattern": lambda: or_gate.truth().patterns[2],
        "domain": lambda: or_gate.domain(sidb.Grid.parse("5.2:0.4:3,4.5:0.5:3")),
        "levels": lambda: layout.level_range("0.2", "0.4"),
        "shares": lambda: layout.occupation("0.2", "0.0257"),
    }
    return made[name]()


SHOWN = {
    "layout": ["or_gate_01", "fixed charge", "−1"],
    "gate": ["or_gate: or", "in 0 = 1", "out = 0"],
    "ground": ["entry 0 of 1, certain", "negative", "neutral"],
    "truth": ["00: works, wants 0", "11: works, wants 1"],
    "pattern": ["pattern 2"],
    "domain": ["relative permittivity", "screening length (nm)", "works", "fails"],
    "levels": ["mu_minus (V)", "-00--00--00-0-0-0-", "certain"],
    "shares": ["share among the entries", "0.3747", "kT = 25.7 meV"],
}


@pytest.mark.parametrize("name", list(SHOWN))
def test_picture_of_each(tmp_path: Path, or_gate: sidb.Gate, name: str) -> None:
    answer = answers(name, or_gate)
    answer.draw(path=tmp_path / "one.svg")
    answer.draw(path=tmp_path / "one.png")
    answer.draw(path=tmp_path / "again.svg")
    assert (tmp_path / "one.svg").read_bytes() == (tmp_path / "again.svg").read_bytes()
    assert (tmp_path / "one.svg").stat().st_size < 60_000
    assert (tmp_path / "one.png").read_bytes().startswith(b"\x89PNG")
    shown = texts_of(tmp_path / "one.svg")
    for text in SHOWN[name]:
        assert text in shown


def test_dots_stand_where_the_layout_has_them() -> None:
    figure = sites("three_neighbours").ground().draw()
    lines = {line.get_marker(): line for line in figure.axes[0].lines}
    negative = next(line for line in figure.axes[0].lines if line.get_markerfacecolor() == "#0b4f8a")
    positive = next(line for line in figure.axes[0].lines if line.get_markerfacecolor() == "#f0a04b")
    assert list(negative.get_xdata()) == [0, 7.68] and list(negative.get_ydata()) == [0, 0]
    assert list(positive.get_xdata()) == [3.84]
    assert list(lines["+"].get_xdata()) == [3.84] and list(lines["_"].get_xdata()) == [0, 7.68]


def test_mark_is_shown_in_words(tmp_path: Path) -> None:
    sites("far_pairs").ground().draw(path=tmp_path / "far.svg")
    assert "hop of an electron from site 0 to site 1" in texts_of(tmp_path / "far.svg")


def cells_of(figure: Any, verdict: str) -> set[tuple[float, ...]]:
    """The corners of the rectangles of a verdict."""
    fill, hatch, _ = pictures.VERDICT_STYLE[verdict]
    found = [
        patch for patch in figure.axes[0].patches
        if pictures.matplotlib.colors.to_hex(patch.get_facecolor()) == pictures.matplotlib.colors.to_hex(fill)
        and (patch.get_hatch() or "") == hatch and patch.get_fill()
    ]  # fmt: skip
    assert len(found) <= 1
    corners = found[0].get_path().vertices.reshape(-1, 5, 2) if found else []
    return {tuple(round(float(v), 9) for v in (r[0][0], r[2][0], r[0][1], r[2][1])) for r in corners}


def test_map_covers_each_cell_with_its_verdict(or_gate: sidb.Gate) -> None:
    grid = sidb.Grid.parse("5:1:2,4:1:3")
    verdicts = ["works", "works", "fails", "undecided", "budget", "works"]
    cells = tuple(Cell(eps, lam, verdict) for (eps, lam), verdict in zip(grid.points(), verdicts))
    figure = pictures.plot_domain(DomainAnswer(or_gate, grid, cells, None))
    assert cells_of(figure, "works") == {(4.5, 5.5, 3.5, 5.5), (5.5, 6.5, 5.5, 6.5)}
    assert cells_of(figure, "fails") == {(4.5, 5.5, 5.5, 6.5)}
    assert cells_of(figure, "undecided") == {(5.5, 6.5, 3.5, 4.5)}
    assert cells_of(figure, "budget") == {(5.5, 6.5, 4.5, 5.5)}


def test_map_of_4096_cells_is_small(tmp_path: Path, or_gate: sidb.Gate) -> None:
    grid = sidb.Grid.parse("5:0.01:64,4:0.01:64")
    cells = tuple(Cell(eps, lam, "works" if eps + lam < 10 else "fails") for eps, lam in grid.points())
    pictures.plot_domain(DomainAnswer(or_gate, grid, cells, None), tmp_path / "map.svg")
    assert (tmp_path / "map.svg").stat().st_size < 60_000


def test_picture_of_regions(tmp_path: Path, or_gate: sidb.Gate) -> None:
    two, half = Decimal(2), Decimal("1.5")
    tiles = (
        Tile((Decimal(1), two), (Decimal(4), Decimal(5)), "works"), Tile((two, Decimal(3)), (Decimal(4), Decimal(5)), "fails", 1),
        Tile((Decimal(1), half), (Decimal(5), Decimal(6)), "undecided", 0),
    )  # fmt: skip
    run = or_gate.truth().run
    answer = RegionAnswer(or_gate, sidb.Grid.parse("1:1:2,4:1:2"), 1, tiles, 1, 1, 2, run)
    domain = DomainAnswer(or_gate, sidb.Grid.parse("1.5:1:1,4.5:1:1"), (Cell(half, Decimal("4.5"), "works"),), None)
    figure = pictures.plot_regions(answer, tmp_path / "regions.svg", domain=domain)
    assert cells_of(figure, "works") == {(1, 2, 4, 5)} and cells_of(figure, "fails") == {(2, 3, 4, 5)}
    assert cells_of(figure, "undecided") == {(1, 1.5, 5, 6)}
    assert [list(line.get_xdata()) for line in figure.axes[0].lines] == [[1.5]]
    shown = texts_of(tmp_path / "regions.svg")
    assert all(text in shown for text in ("works", "fails", "undecided", "works, at a point"))
    assert "fails, at a point" not in shown


def test_names_show_as_text(tmp_path: Path) -> None:
    hostile = '<script>alert("$x^2$")</script> $\\frac{'
    sidb.Layout([(0, 0, 0)], name=hostile).draw(path=tmp_path / "x.svg")
    assert hostile in texts_of(tmp_path / "x.svg")
    assert "<script" not in (tmp_path / "x.svg").read_text()


def test_pictures_that_cannot_be_made(tmp_path: Path) -> None:
    with pytest.raises(sidb.ValueFault, match="no entry 1"):
        sites("wire").ground().draw(1)
    with pytest.raises(sidb.ValueFault, match=".svg, .png or .pdf"):
        sites("wire").draw(path=tmp_path / "wire.gif")
    with pytest.raises(sidb.ValueFault, match="answer to a layout"):
        sidb.ground(sidb.Table(sites("wire").potentials().run.text)).draw()


def test_empty_layout_and_no_list(tmp_path: Path) -> None:
    sidb.Layout(()).ground().draw(path=tmp_path / "empty.svg")
    pushed = sidb.Layout([(0, 0, 0)], [(1, 0, 0, -2)], name="pushed")
    pushed.ground(parameters=sidb.Parameters(base=2)).draw(path=tmp_path / "none.svg")
    assert "pushed: no list is valid" in texts_of(tmp_path / "none.svg")


def test_text_for_a_page() -> None:
    assert pictures.svg_text(sites("wire").draw()).startswith("<svg")
