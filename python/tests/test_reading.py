"""Texts that are changed at random are refused, or read as what they say: no other exception comes."""

from __future__ import annotations

import random

import pytest
import sidb
from conftest import stored
from sidb import reading

READERS = {
    "or_gate_01": reading.ground_of,
    "far_pairs": reading.ground_of,
    "far_square": reading.ground_of,
    "or_gate_11_gap": reading.window_of,
    "or_gate_01_room": reading.occupation_of,
    "or_gate_01_range": reading.range_of,
    "three_neighbours_table": reading.table_of,
    "two_neighbours_certificate": reading.certificate_of,
    "or_gate_undecided": reading.truth_of,
    "or_gate_domain": reading.domain_of,
    "gen_one": reading.gen_of,
}


def changed(text: str, chance: random.Random) -> str:
    """A text with a piece of it left out, doubled, or in place of another."""
    ends = sorted(chance.randrange(len(text) + 1) for _ in range(2))
    start, end = ends[0], min(ends[1], ends[0] + chance.choice((1, 2, 5, 40, len(text))))
    put = chance.choice(("", text[start:end] * 2, " ", "\n", "-", "9" * 30, "x", "certain", "."))
    return text[:start] + put + text[end:]


@pytest.mark.parametrize("name", READERS)
def test_changed_texts(name: str) -> None:
    chance, refused = random.Random(name), 0
    READERS[name](stored(name))
    for _ in range(300):
        try:
            READERS[name](changed(stored(name), chance))
        except sidb.BadAnswer:
            refused += 1
    assert refused > 100


def test_charges_of_another_number_of_sites() -> None:
    with pytest.raises(sidb.BadAnswer, match="Line 17"):
        reading.ground_of(stored("wire").replace("-0-0-00-0-0- ", "-0-0-00-0-0 "))
