"""What the tests share: the program, the examples, and their stored answers."""

from __future__ import annotations

from pathlib import Path

import pytest
import sidb

EXAMPLES = Path(__file__).resolve().parents[2] / "examples"


def stored(name: str) -> str:
    """The stored answer of that name."""
    return (EXAMPLES / "answers" / name).read_text()


def entry_lines(text: str) -> list[str]:
    """The lines of a text that begin with a charge text."""
    return [line for line in text.split("\n") if line[:1] in ("-", "0", "+", ".")]


def sites(name: str) -> sidb.Layout:
    """The layout of an example."""
    return sidb.read_sites(EXAMPLES / f"{name}.sites")


@pytest.fixture
def or_gate() -> sidb.Gate:
    """The OR gate whose inputs are pairs of dots."""
    return sidb.Gate.parse(sites("or_gate"), "0:2,1:3", "20:21", "or")


@pytest.fixture
def inverter() -> sidb.Gate:
    """Two dots between the two places of an input."""
    return sidb.Gate.parse(sites("inverter"), "0:3", "1:2", "not")
