"""Studies of how robust a gate is. Each expected verdict is worked by hand, from the potentials below.

Potentials in V at the usual parameters, by K/(eps r) exp(-r/lambda) with r = 3.84 Å a column:

    columns   1      2      3      4      5      6      7      8      9
    V         0.620  0.287  0.177  0.123  0.091  0.070  0.056  0.045  0.037

The inverter has dots in columns 0, 6, 8 and 14 of a row; its input is the dot at 0 (for a 0) or at 14 (for a 1), its
output the pair at 6 and 8. A dot is negative where its neighbours give less than 0.32 V.
"""

from __future__ import annotations

import csv
import math
from collections.abc import Callable
from concurrent.futures import ThreadPoolExecutor
from dataclasses import replace
from decimal import ROUND_CEILING, ROUND_FLOOR, Decimal
from fractions import Fraction
from pathlib import Path

import pytest
import sidb
from conftest import sites
from sidb import heat, studies
from sidb.answers import OccupationAnswer, Share


def inverter_with(*fixed: tuple[int, int, int, int]) -> sidb.Gate:
    """The inverter with further fixed charges."""
    return sidb.Gate.parse(sites("inverter"), "0:3", "1:2", "not").with_fixed(*fixed)


# Defects


def test_a_defect_on_top_of_an_input_reads_as_that_input(inverter: sidb.Gate) -> None:
    """A fixed electron in place of the dot at 0 does what that dot does: the same charges at 6 and 8."""
    by_dot = inverter.truth().patterns[0].entries
    alone = sidb.Layout([(6, 0, 0), (8, 0, 0)], fixed=[(0, 0, 0, -1)])
    assert [entry.charges[1:] for entry in by_dot] == [entry.charges for entry in alone.ground().entries] == ["0-"]


@pytest.mark.parametrize(
    ("column", "verdict", "pattern"),
    [
        # as near to 6 as 5 columns: 0.091 + 0.045 V at 6 against 0.056 + 0.070 V at 8, so under the input 1 the electron
        # goes to 8 too, as if the input were 0
        (1, "fails", 1),
        # its mirror image: under the input 0 it goes to 6, as if the input were 1
        (13, "fails", 0),
        # 7 columns from 6: 0.056 + 0.045 V at 6 against 0.037 + 0.070 V at 8, so the input decides
        (-1, "works", None),
        (15, "works", None),
    ],
)
def test_verdict_with_a_defect_near_an_input(
    inverter: sidb.Gate, column: int, verdict: str, pattern: int | None
) -> None:
    (trial,) = studies.defects(inverter, region=[(column, 0, 0)]).trials
    assert (trial.outcome.verdict, trial.outcome.pattern) == (verdict, pattern)


def test_clearance_is_the_least_distance_from_which_on_the_gate_works(inverter: sidb.Gate) -> None:
    found = studies.defects(inverter, region=[(column, 0, 0) for column in (-3, -2, -1, 1, 13, 15, 0, 6)])
    assert [trial.place.n for trial in found.trials] == [-3, -2, -1, 1, 13, 15]  # 0 and 6 are taken
    assert found.tally == studies.Tally(6, 4, 2)
    # the places that fail are one column from a dot, as are -1 and 15, which work; so are those at two and more
    assert found.last_bad is not None and found.last_bad.squared_distance == 384**2
    assert found.clearance == (2 * 384) ** 2
    assert "0.77 nm" in found.sentences()[1] and "places beyond" not in found.sentences()[2]


def test_clearance_is_not_told_where_a_farthest_place_fails(inverter: sidb.Gate) -> None:
    found = studies.defects(inverter, region=[(1, 0, 0), (13, 0, 0)])
    assert found.clearance is None and "larger region" in found.sentences()[1]


def test_a_region_holds_the_free_places_of_its_columns_and_rows(inverter: sidb.Gate) -> None:
    region = studies.Region.around(inverter.layout, columns=1, rows=0)
    found = studies.defects(inverter, region=region)
    assert len(found.trials) == 17 * 2 - 4
    assert studies.Region((0, 3), (0, 1), step=2).places() == [(0, 0, 0), (2, 0, 0), (0, 1, 0), (2, 1, 0)]
    # outside are the rows above and below: 7.68 Å less the 2.25 Å of the second atom above, 7.68 Å below; and column -2
    assert found.complete_to == (768 - 225) ** 2
    assert studies.Region.around(inverter.layout, 1, 0, step=2).holds_up_to(inverter.layout) is None


def test_an_eighth_fixed_charge_is_taken_and_a_ninth_refused(inverter: sidb.Gate) -> None:
    far = [(2000 + 10 * k, 0, 0, -1) for k in range(8)]
    assert len(studies.defects(inverter_with(*far[:7]), region=[(3000, 0, 0)]).trials) == 1
    with pytest.raises(sidb.ValueFault, match="8 fixed charges"):
        studies.defects(inverter_with(*far), region=[(3000, 0, 0)])
    with pytest.raises(sidb.ValueFault, match="-3 to 3"):
        studies.defects(inverter, charge=0)


# Displacements


def test_a_dot_moved_away_breaks_the_inverter(inverter: sidb.Gate) -> None:
    found = studies.displacements(inverter, by=2, sites=[1])
    verdicts = {trial.moves[0].place: trial.outcome for trial in found.singles}
    # the pair at 4 and 8, 0.123 V apart: with the input at 0, another 0.123 V, no dot has 0.32 V, and all are negative
    assert (verdicts[4, 0, 0].verdict, verdicts[4, 0, 0].pattern) == ("fails", 0)
    # the pair at 5 and 8: 0.177 + 0.091 V, still less than 0.32 V
    assert (verdicts[5, 0, 0].verdict, verdicts[5, 0, 0].pattern) == ("fails", 0)
    # the pair at 7 and 8, in the middle between 0 and 14: the input decides as before
    assert verdicts[7, 0, 0].verdict == "works"
    assert found.worst() == {1: "fails"}
    assert (8, 0, 0) not in verdicts and len(verdicts) == 5 * 5 - 2  # its own place, and the other dot's


def test_each_dot_is_moved_to_each_free_place_near(or_gate: sidb.Gate) -> None:
    """8 places round each dot, less those where another one stands: none does here."""
    assert sum(len(studies_places(or_gate, site)) for site in range(4, 22)) == 18 * 8


def studies_places(gate: sidb.Gate, site: int) -> list[sidb.Place]:
    from sidb.robustness import places_near

    return places_near(gate.layout, site, 1)


def test_pairs_follow_a_dot_that_changes_its_number(inverter: sidb.Gate) -> None:
    from sidb.robustness import Move, moved_gate

    moved = moved_gate(inverter, [Move(0, sidb.Place(0, -1, 1)), Move(1, sidb.Place(7, 0, 0))])
    at = [[moved.layout.sites[site] for site in pair] for pair in (*moved.inputs, *moved.outputs)]
    assert at == [[(0, -1, 1), (14, 0, 0)], [(7, 0, 0), (8, 0, 0)]]
    down = moved_gate(inverter, [Move(0, sidb.Place(0, 0, 1))])
    assert down.inputs == ((3, 2),) and down.outputs == ((0, 1),)


def test_the_same_seed_draws_the_same_samples(inverter: sidb.Gate) -> None:
    drawn = [studies.displacements(inverter, sites=[1, 2], samples=5, at_once=2, seed=seed) for seed in (7, 7, 8)]
    assert drawn[0].seed == 7 and drawn[0] == drawn[1]
    assert [t.moves for t in drawn[0].samples] != [t.moves for t in drawn[2].samples]
    for trial in drawn[0].samples:
        assert [move.site for move in trial.moves] == [1, 2]
        for move in trial.moves:
            n, m, atom = inverter.layout.sites[move.site]
            assert abs(move.place.n - n) <= 1 and abs(2 * move.place.m + move.place.l - 2 * m - atom) <= 1


def test_a_point_that_fails_touches_no_other(inverter: sidb.Gate) -> None:
    """A dot in column 5001 is out of the program's range."""
    far = inverter.on(inverter.layout.translated(5000 - 14, 0), lambda p: sidb.Place(p.n + 5000 - 14, p.m, p.l))
    found = studies.displacements(far, sites=[3])
    by_column: dict[int, set[str]] = {}
    for trial in found.singles:
        by_column.setdefault(trial.moves[0].place.n, set()).add(trial.outcome.verdict)
    assert by_column[5001] == {"missing"} and "missing" not in by_column[4999] | by_column[5000]
    assert 1 <= len(found.faults()) <= 3
    assert all("range" in fault for fault in found.faults())


def test_a_limit_that_is_too_low_is_said(inverter: sidb.Gate) -> None:
    found = studies.displacements(inverter, sites=[1], limit=1)
    assert found.tally == studies.Tally(8, 0, 0) and found.tally.open == 8
    assert set(found.worst().values()) == {"budget"} and "limit" in found.faults()[0]


def test_any_executor_gives_the_same(inverter: sidb.Gate) -> None:
    with ThreadPoolExecutor(1) as one:
        assert studies.displacements(inverter, sites=[1], executor=one) == studies.displacements(inverter, sites=[1])


def test_rows_go_to_csv(inverter: sidb.Gate, tmp_path: Path) -> None:
    found = studies.displacements(inverter, sites=[1])
    found.write_csv(tmp_path / "rows.csv")
    with open(tmp_path / "rows.csv", newline="", encoding="utf-8") as file:
        rows = list(csv.DictReader(file))
    assert len(rows) == 8 and {"moved": "1:5,0,0", "verdict": "fails"}.items() <= rows[[r["moved"] for r in rows].index("1:5,0,0")].items()
    assert len(found.frame()) == 8


def test_tally_says_at_least_and_at_most() -> None:
    tally = studies.Tally.of(["works", "works", "fails", "undecided"])
    assert (tally.trials, tally.works, tally.fails, tally.open) == (4, 2, 1, 1)
    assert tally.share == (Fraction(1, 2), Fraction(3, 4))


# Levels


def test_fit_of_two_neighbours() -> None:
    """One column apart: 0.620 V at 5.6, so one of both is negative at each level; at 20 it is 14.399645/(20·3.84)·
    exp(-3.84/50) = 0.1736 V, so both are; at 10 it is 0.3473 V, so both are below that level."""
    layout = sidb.Layout([(0, 0, 0), (1, 0, 0)])
    for eps, alone, both in (("5.6", "certain", "excluded"), ("20", "excluded", "certain"), ("10", "certain", "certain")):
        grid = sidb.Grid.of((eps, 1, 1), ("5", 1, 1))
        assert [p.state for p in studies.fit(layout, "-0", grid).points] == [alone]
        assert [p.state for p in studies.fit(layout, (-1, -1), grid).points] == [both]
    (point,) = studies.fit(layout, {sidb.Place(0, 0, 0): -1, sidb.Place(1, 0, 0): 0}, grid).points
    certain = [part for part in point.levels if part.what == "certain"]
    assert len(certain) == 1 and certain[0].last == -200_000_000_000
    assert abs(certain[0].first + 347_280_000_000) < 100_000_000


def test_fit_refuses_what_is_no_charge_list_of_the_layout() -> None:
    layout, grid = sidb.Layout([(0, 0, 0), (1, 0, 0)]), sidb.Grid.of((5, 1, 1), (5, 1, 1))
    for observed in ("-", "-00", "-x", (-1, 2), {sidb.Place(0, 0, 0): -1}):
        with pytest.raises(sidb.ValueFault):
            studies.fit(layout, observed, grid)
    with pytest.raises(sidb.ValueFault, match="lesser"):
        studies.fit(layout, "-0", grid, ("0.4", "0.2"))


def test_fit_says_where_a_point_has_no_answer() -> None:
    layout = sidb.Layout([(0, 0, 0), (1, 0, 0)])
    found = studies.fit(layout, "-0", sidb.Grid.of(("5.6", 95, 2), (5, 1, 1)))
    assert [point.state for point in found.points] == ["certain", "open"] and found.points[1].fault


def test_levels_at_which_the_inverter_works(inverter: sidb.Gate) -> None:
    """The dot of the output that is nearer to the input is neutral, with 0.2871408 + 0.0703977 V against it: below
    -0.3575385 V it would be negative, all three dots are, and no bit is read."""
    found = studies.domain3(inverter, sidb.Grid.of(("5.6", 1, 1), (5, 1, 1)))
    (point,) = found.points
    wide = [part for part in point.parts if part.count > 1000]
    assert [(part.what, part.pattern) for part in wide] == [("fails", 0), ("works", None)]
    assert wide[0].first == -400_000_000_000 and wide[1].last == -200_000_000_000
    assert abs(wide[1].first + 357_538_500_000) < 1_000_000
    assert point.levels == 200_000_000_001
    for one, two in zip(point.parts, point.parts[1:]):
        assert two.first == one.last + 1


def test_verdicts_over_levels_are_those_of_the_truth_table(or_gate: sidb.Gate) -> None:
    """At levels in the middle of parts the program's own truth table says the same."""
    (point,) = studies.domain3(or_gate, sidb.Grid.of(("5.6", 1, 1), (5, 1, 1)), ("0.3", "0.36")).points
    wide = [part for part in point.parts if part.count > 1_000_000]
    assert {part.what for part in wide} == {"works", "fails"}
    for part in wide:
        depth = Decimal(-(part.first + part.last) // 2).scaleb(-12)
        truth = or_gate.truth(parameters=sidb.Parameters(depth=depth))
        assert (truth.verdict, truth.pattern) == (part.what, part.pattern)


def test_a_reader_reads_as_the_program_does(or_gate: sidb.Gate) -> None:
    for function in ("or", "and", "xor", "nor"):
        truth = replace(or_gate, function=function).truth()
        for pattern in truth.patterns:
            reader = studies.Reader(truth.gate, pattern.number)
            right = all(reader.is_right(entry.charges) for entry in pattern.entries)
            assert all(entry.certain for entry in pattern.entries)
            assert pattern.verdict == ("works" if right else "fails")


# Temperatures


def test_the_inverter_has_one_list_whose_share_is_all(inverter: sidb.Gate) -> None:
    """Its other list lets an electron hop to the ground state, so it is not valid and has no share."""
    found = studies.temperatures(inverter, "0.1", kts=["0.01", "1"])
    for pattern in found.patterns:
        assert [(s.least, s.greatest, s.right, s.entries) for s in pattern.shares] == [(10**9, 10**9, 1, 1)] * 3
        assert pattern.holds == studies.Holds(Decimal(1), None)
    assert found.up_to == 1


def test_two_lists_of_equal_energy_share() -> None:
    """Two neighbours, and an input that is too far away to count: both lists have one half, to 10^-12 eV."""
    gate = sidb.Gate.parse(sites("far_pairs"), "2:3", "0:1", "buf")
    enough, more = (studies.temperatures(gate, "0.1", at_least=share, kts=["0.02"]) for share in ("0.4999", "0.5001"))
    for pattern in enough.patterns:
        assert all(500_000_000 - 2 <= s.least <= s.greatest <= 500_000_000 + 2 for s in pattern.shares)
        assert pattern.holds == studies.Holds(Decimal("0.02"), None)
    assert [pattern.holds for pattern in more.patterns] == [studies.Holds(None, Decimal("0.001"))] * 2
    assert "wider window" in " ".join(more.sentences()) and "among the entries" in " ".join(more.sentences())


def asked(gate: sidb.Gate, lists: dict[str, float], at_least: str) -> Callable[[list[str]], studies.Holds]:
    """The kT up to which a share holds, where the lists have these energies in eV, by Boltzmann's formula."""

    def answer(kt: Decimal) -> OccupationAnswer:
        whole = sum(Decimal(math.exp(-energy / float(kt))) for energy in lists.values())
        parts = {charges: Decimal(math.exp(-energy / float(kt))) / whole * 10**9 for charges, energy in lists.items()}
        shares = (Share(c, int((p - 1).to_integral_value(ROUND_FLOOR)), int((p + 1).to_integral_value(ROUND_CEILING))) for c, p in parts.items())
        return OccupationAnswer(None, 0, int(kt.scaleb(12)), tuple(shares), None)  # type: ignore[arg-type]

    class Known(dict[Decimal, OccupationAnswer]):
        def __contains__(self, kt: object) -> bool:
            return True

        def __missing__(self, kt: Decimal) -> OccupationAnswer:
            self[kt] = answer(kt)
            return self[kt]

    def holds(kts: list[str]) -> studies.Holds:
        warm = heat._Warm(gate, Decimal(1), heat._share(at_least), Decimal("0.0001"), studies.Search())
        known = Known()
        for kt in kts:
            known[Decimal(kt)]
        return warm.holds(studies.Reader(gate, 0), known)

    return holds


def test_bisection_finds_the_kt_of_two_lists(inverter: sidb.Gate) -> None:
    """0.1 eV apart the lower has 9 of 10 parts where exp(0.1/kT) = 9, at 0.1/ln 9 = 0.045512 eV."""
    found = asked(inverter, {"-0-": 0.0, "--0": 0.1}, "0.9")(["0.001", "0.03", "0.1"])
    assert found.up_to is not None and found.lost_at is not None
    assert found.up_to <= Decimal("0.045512") <= found.lost_at
    assert found.lost_at - found.up_to <= Decimal("0.0002")


def test_bisection_is_not_misled_where_a_share_comes_back(inverter: sidb.Gate) -> None:
    """One right list at 0, a wrong one at 0.01 eV, three right ones at 0.05 eV. At kT of 0.02 eV the right ones have
    1.246 of 1.853 parts, 0.67; at 1 eV 3.85 of 4.84, 0.80; the share first falls below 0.7 where the wrong one has
    0.43 of the right ones' parts, near kT = 0.0127 eV."""
    reads_right, wrong = "-0-", "--0"
    lists = {reads_right: 0.0, wrong: 0.01, "00-": 0.05, "+0-": 0.05, "0+-": 0.05}
    found = asked(inverter, lists, "0.7")(["0.001", "1"])
    assert found.up_to is not None and Decimal("0.0110") < found.up_to < Decimal("0.0135")
    assert found.lost_at is not None and found.lost_at > found.up_to


def test_a_stated_share_and_an_accuracy_have_a_range(inverter: sidb.Gate) -> None:
    for wrong in ({"at_least": 0}, {"at_least": "1.1"}, {"accuracy": 0}):
        with pytest.raises(sidb.ValueFault):
            studies.temperatures(inverter, **wrong)  # type: ignore[arg-type]


def test_a_pattern_without_shares_says_why(or_gate: sidb.Gate) -> None:
    found = studies.temperatures(or_gate, "0.1", kts=["0.02"], limit=1)
    assert all("limit" in pattern.fault and not pattern.shares for pattern in found.patterns)
    assert found.up_to is None and found.faults()


# Pictures


def test_each_study_draws_itself(inverter: sidb.Gate, tmp_path: Path) -> None:
    pytest.importorskip("matplotlib")
    grid = sidb.Grid.of(("5.6", "0.4", 2), (5, 1, 2))
    made = {
        "displacements": studies.displacements(inverter),
        "defects": studies.defects(inverter, region=studies.Region.around(inverter.layout, 2, 1)),
        "fit": studies.fit(inverter.layout_of(0), "-0-", grid),
        "temperatures": studies.temperatures(inverter, "0.1", kts=["0.01", "0.02"]),
        "domain3": studies.domain3(inverter, grid),
    }
    for name, study in made.items():
        for ending in ("svg", "png"):
            study.draw(tmp_path / f"{name}.{ending}")
            assert (tmp_path / f"{name}.{ending}").stat().st_size > 2000
        assert study.sentences() and study.rows()
