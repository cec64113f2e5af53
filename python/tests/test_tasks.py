"""Each task over the built program: its text is the stored one, and its value says what the text says."""

from __future__ import annotations

import dataclasses
import pickle
from decimal import Decimal

import pytest
import sidb
from conftest import EXAMPLES, entry_lines, sites, stored


def lines_of(answer: sidb.GroundAnswer) -> list[str]:
    """The entry lines that an answer stands for."""
    energies = (f" energy {e.energy.least} {e.energy.greatest}" if e.energy else "" for e in answer.entries)
    return [f"{e.charges} {e.mark}{energy}" for e, energy in zip(answer.entries, energies)]


GROUND = ["three_neighbours", "wire", "wire_end", "or_gate_00", "or_gate_01", "or_gate_10", "or_gate_11", "far_pairs", "far_square"]


@pytest.mark.parametrize("name", GROUND)
def test_ground_list_is_the_stored_one(name: str) -> None:
    layout = sites(name)
    answer = layout.ground()
    assert answer.run.text == stored(name)
    assert lines_of(answer) == entry_lines(stored(name))
    assert answer.layout is layout
    assert answer.run.program.form in stored(name)


def test_energies_are_whole_numbers_and_the_same_in_ev() -> None:
    (entry,) = sites("three_neighbours").ground().entries
    assert entry.numbers == (-1, 1, -1)
    assert entry.energy == (-953107708687, -953107708684)
    assert entry.energy.ev == (Decimal("-0.953107708687"), Decimal("-0.953107708684"))
    assert entry.certain and entry.mark.settles


def test_charges_stand_at_their_places() -> None:
    layout = sidb.Layout([(2, 0, 0), (0, 0, 0), (1, 0, 0)])
    answer = layout.ground()
    assert answer.charges_at() == {(0, 0, 0): -1, (1, 0, 0): 1, (2, 0, 0): -1}
    assert layout.sites == ((0, 0, 0), (1, 0, 0), (2, 0, 0))


def test_parameters_are_words_and_are_kept() -> None:
    parameters = sidb.Parameters(lam=8)
    answer = sites("or_gate_11").ground(parameters=parameters)
    assert answer.run.text == stored("or_gate_11_tie")
    assert answer.run.parameters == parameters
    assert answer.run.words[-2:] == ("--lambda", "8")


def test_marks_say_what_decides() -> None:
    hop = sites("far_pairs").ground().entries[0].mark
    assert (hop.kind, hop.start, hop.end, hop.slack) == ("hop", 0, 1, (-1, 1))
    assert "from site 0 to site 1" in hop.in_words()
    rival = sites("far_square").ground().entries[0].mark
    assert (rival.kind, rival.entry, rival.slack) == ("rival", 1, (-2, 2))
    assert rival.settles and not rival.certain


def test_window_is_the_stored_one() -> None:
    answer = sites("or_gate_01").window("0.0089")
    assert answer.run.text == stored("or_gate_01_gap")
    assert answer.window == 8_900_000_000
    assert lines_of(answer) == entry_lines(stored("or_gate_01_gap"))


def test_shares_are_the_stored_ones() -> None:
    answer = sites("or_gate_01").occupation("0.2", 0.0257)
    assert answer.run.text == stored("or_gate_01_room")
    assert (answer.window, answer.kt) == (200_000_000_000, 25_700_000_000)
    assert answer.shares[-1] == ("-00--00--00-0-0-0-", 374673390, 374673392)
    assert answer.shares[-1].shares == (Decimal("0.374673390"), Decimal("0.374673392"))


def test_parts_of_a_range_are_the_stored_ones() -> None:
    answer = sites("or_gate_01").level_range("0.2", "0.4")
    assert answer.run.text == stored("or_gate_01_range")
    assert len(answer.parts) == 13
    assert (-341354737460, -215957379080, True) in answer.parts_of("-00--00--00-0-0-0-")
    assert len(answer.lists()) == 7


def test_range_of_a_table() -> None:
    table = sidb.Table((EXAMPLES / "near_tie.table").read_text())
    answer = sidb.level_range(table, 0, "0.0000000002")
    assert answer.run.text == stored("near_tie_range")
    assert [len(part.entries or ()) for part in answer.parts] == [1, 2, 1, 2, 4, 5]


def test_potentials_are_the_stored_ones_and_can_be_read_back() -> None:
    answer = sites("three_neighbours").potentials()
    assert answer.run.text == stored("three_neighbours_table")
    assert answer.span(1, 0) == answer.span(1, 2) == (620124254312, 620124254313)
    assert answer.span(0, 2) == (287140799939, 287140799940)
    assert (answer.mu_minus, answer.mu_plus, answer.base) == (-320000000000, -910000000000, 3)
    assert sidb.ground(sidb.Table(answer.run.text)).run.text == stored("three_neighbours_from_table")


def test_potentials_with_fixed_charges() -> None:
    answer = sites("wire_end").potentials()
    assert answer.charges == (-1,)
    assert set(answer.near) == {(site, 0) for site in range(8)}
    # the last dot is six columns from the fixed charge, as the second is from the third
    assert answer.classes[answer.near[7, 0]] == answer.span(1, 2)


def test_certificate_is_the_stored_one_and_is_accepted() -> None:
    answer = sites("two_neighbours").certify()
    assert answer.text == stored("two_neighbours_certificate")
    assert (answer.tokens, [e.charges for e in answer.entries]) == (10, ["-0", "0-"])
    assert sidb.check(answer.text).run.text == stored("two_neighbours_checked")
    assert sidb.check((EXAMPLES / "four_by_hand.certificate").read_text()).run.text == stored("four_by_hand")


def test_certificate_that_is_not_sound() -> None:
    text = stored("two_neighbours_certificate").replace("tokens\nn\nn\ns 0\n", "tokens\nn\nn\nn\n")
    with pytest.raises(sidb.CertificateFault) as fault:
        sidb.check(text)
    assert (fault.value.status, fault.value.line) == (4, "fault certificate token 2 shape")


@pytest.mark.parametrize(
    ("function", "name", "verdict", "pattern"), [("or", "or_gate_works", "works", None), ("and", "or_gate_fails", "fails", 1)]
)
def test_truth_table_is_the_stored_one(or_gate: sidb.Gate, function: str, name: str, verdict: str, pattern: int | None) -> None:
    gate = dataclasses.replace(or_gate, function=function)
    answer = gate.truth()
    assert answer.run.text == stored(name)
    assert (answer.verdict, answer.pattern) == (verdict, pattern)
    assert [answer.bits_read(p) for p in range(4)] == [(0,), (1,), (1,), (1,)]
    assert [e.charges for p in answer.patterns for e in p.entries] == [line.split()[0] for line in entry_lines(stored(name))]


def test_undecided_patterns(or_gate: sidb.Gate) -> None:
    answer = or_gate.truth(parameters=sidb.Parameters(depth="0.344843633289"))
    assert answer.run.text == stored("or_gate_undecided")
    assert (answer.verdict, answer.pattern) == ("undecided", 0)
    assert [str(e.mark) for e in answer.patterns[0].entries][2] == "unresolved population 4 below-minus -2 10"


def test_patterns_leave_the_sites_that_they_say(or_gate: sidb.Gate) -> None:
    answer = or_gate.truth()
    assert answer.patterns[1].numbers == (0, 3, *range(4, 22))
    assert answer.patterns[1].layout.sites[:2] == ((-12, -6, 0), (44, 0, 0))
    # the same layout as one of its own gives the pattern's ground list
    assert answer.patterns[1].layout.ground().entries[0].charges == answer.patterns[1].entries[0].charges


def test_domain_is_the_stored_one(or_gate: sidb.Gate) -> None:
    answer = or_gate.domain(sidb.Grid.parse("5.2:0.4:3,4.5:0.5:3"))
    assert answer.run.text == stored("or_gate_domain")
    assert answer.cell(2, 0) == (Decimal("6"), Decimal("4.5"), "fails", 0)
    assert [cell.verdict for cell in answer.cells].count("works") == 8


def test_domain_of_the_inverter(inverter: sidb.Gate) -> None:
    answer = inverter.domain(sidb.Grid.of(("5.6", "0.4", 2), (5, 1, 2)))
    assert answer.run.text == stored("inverter_domain")


def test_gen() -> None:
    answer = sidb.gen(1, 1)
    assert answer.run.text == stored("gen_one")
    assert (answer.nodes, answer.entries, answer.certain) == (2, 1, 1)


def test_empty_layout_has_one_empty_list() -> None:
    answer = sidb.Layout(()).ground()
    assert [entry.charges for entry in answer.entries] == [""]


def test_no_list_is_valid_where_a_dot_can_only_be_positive() -> None:
    pushed = sidb.Layout([(0, 0, 0)], [(1, 0, 0, -2)])
    assert [entry.charges for entry in pushed.ground().entries] == ["+"]
    assert pushed.ground(parameters=sidb.Parameters(base=2)).entries == ()


def test_another_lattice() -> None:
    close = sidb.Layout([(0, 0, 0), (1, 0, 0)], lattice=(225, 0, 0, 768, 0, 225))
    answer = close.ground()
    assert [entry.charges for entry in answer.entries] == ["-+", "+-"]
    assert answer.run.program.form == "sidb-ground 2"


def test_answers_go_through_pickle(or_gate: sidb.Gate) -> None:
    answer = or_gate.truth()
    assert pickle.loads(pickle.dumps(answer)) == answer


def test_version_is_that_of_the_program() -> None:
    import hashlib
    from pathlib import Path

    version = sites("wire").ground().run.program
    assert version.sha256 == hashlib.sha256(Path(version.path).read_bytes()).hexdigest()
    assert version.form == "sidb-ground 1"
