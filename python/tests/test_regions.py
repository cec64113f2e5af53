"""The task region: its text, read by a stand-in for a program that has it, what a tile says, and that no point of a
domain contradicts it."""

from __future__ import annotations

import stat
from decimal import Decimal
from pathlib import Path

import pytest
import sidb
from sidb import reading
from sidb.answers import Cell, Tile

TEXT = """sidb-region 1
tile 5.0000 5.1250 4.0000 4.1250 works
tile 5.1250 5.1875 4.0000 4.1250 fails 1
tile 5.1875 5.2500 4.0000 4.1250 undecided 0
tile 5.2500 5.2500 4.0000 4.1250 budget 3
works 1562500
fails 781250
open 781250
end
"""


def test_tiles_of_a_text() -> None:
    tiles, works, fails, left = reading.region_of(TEXT)
    assert (works, fails, left) == (1562500, 781250, 781250)
    assert [tile.verdict for tile in tiles] == ["works", "fails", "undecided", "budget"]
    assert [tile.pattern for tile in tiles] == [None, 1, 0, 3]
    assert [tile.proved for tile in tiles] == [True, True, False, False]
    assert tiles[1].eps == (Decimal("5.125"), Decimal("5.1875")) and tiles[1].lam == (Decimal(4), Decimal("4.125"))


@pytest.mark.parametrize("change", [("works 1", "works x"), ("fails 1", "fails"), ("end\n", ""), ("5.0000 5.1250", "5.0000"), ("open", "left")])
def test_texts_that_are_none(change: tuple[str, str]) -> None:
    with pytest.raises(sidb.BadAnswer):
        reading.region_of(TEXT.replace(*change))


def test_words_and_answer(tmp_path: Path, or_gate: sidb.Gate) -> None:
    program = tmp_path / "sidb"
    (tmp_path / "text").write_text(TEXT)
    program.write_text(f"#!/bin/sh\ncat > /dev/null; cat {tmp_path}/text\n")
    program.chmod(program.stat().st_mode | stat.S_IXUSR)
    answer = or_gate.region(sidb.Grid.parse("5:0.125:2,4:0.125:1"), 3, program=program)
    assert " ".join(answer.run.words) == (
        "--task region --input 0:2,1:3 --output 20:21 --function or --grid 5:0.125:2,4:0.125:1 --refine 3"
    )
    assert answer.works + answer.fails + answer.open == 2500 * 1250
    assert answer.rows()[1] == {
        "eps_first": "5.1250", "eps_last": "5.1875", "lambda_first": "4.0000", "lambda_last": "4.1250", "verdict": "fails", "pattern": 1,
    }  # fmt: skip
    answer.draw(path=tmp_path / "regions.svg")
    assert (tmp_path / "regions.svg").exists()


def holds(tile: Tile, cell: Cell) -> bool:
    """Whether a point lies in a tile, its borders included."""
    return tile.eps[0] <= cell.eps <= tile.eps[1] and tile.lam[0] <= cell.lam <= tile.lam[1]


@pytest.mark.parametrize(
    ("name", "rectangles", "refine", "points"),
    [
        ("inverter", "5.6:0.5:4,4.2:0.5:4", 3, "5.6:0.0625:33,4.2:0.0625:33"),
        ("inverter", "5.6:0.5:4,4.2:0.5:4", 3, "5.6001:0.0713:28,4.2003:0.0697:28"),
        ("or_gate", "5.7:0.05:2,4.5:0.05:2", 2, "5.7:0.0125:9,4.5:0.0125:9"),
        ("or_gate", "5.7:0.05:2,4.5:0.05:2", 2, "5.7011:0.0119:9,4.5007:0.0121:9"),
    ],
)
def test_no_point_contradicts_its_tiles(
    request: pytest.FixtureRequest, name: str, rectangles: str, refine: int, points: str
) -> None:
    """The points are corners of the tiles, which lie in up to four, and then points that no border goes through."""
    gate: sidb.Gate = request.getfixturevalue(name)
    tiles = gate.region(sidb.Grid.parse(rectangles), refine).tiles
    cells = gate.domain(sidb.Grid.parse(points)).cells
    pairs = [(tile, cell) for cell in cells for tile in tiles if holds(tile, cell)]
    assert {cell for _, cell in pairs} == set(cells)
    assert {tile.verdict for tile, _ in pairs} >= {"works", "fails", "undecided"}
    proved = [(tile, cell) for tile, cell in pairs if tile.proved]
    assert [pair for pair in proved if (pair[0].verdict, pair[0].pattern) != (pair[1].verdict, pair[1].pattern)] == []
