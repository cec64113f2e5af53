"""The rows of ``python -m sidb`` for studies and for the page of a gate."""

from __future__ import annotations

import argparse
import sys
from typing import Any

from .commands import (
    Command,
    add_gate_arguments,
    add_layout_arguments,
    add_parameter_arguments,
    gate_of,
    layout_of,
    parameters_of,
)
from .errors import ValueFault
from .layout import Gate, Grid, Layout
from .trials import Study


def _add_gate(parser: argparse.ArgumentParser) -> None:
    add_layout_arguments(parser)
    add_gate_arguments(parser)
    add_parameter_arguments(parser)


def _add_results(parser: argparse.ArgumentParser, picture: str) -> None:
    parser.add_argument("--to", default=picture, help=f"the picture: .svg, .png or .pdf ({picture})")
    parser.add_argument("--csv", help="a table of the trials")


def _search(arguments: argparse.Namespace, layout: Layout) -> dict[str, Any]:
    return {
        "parameters": parameters_of(arguments, layout), "limit": arguments.limit, "program": arguments.program,
    }  # fmt: skip


def _told(study: Study, arguments: argparse.Namespace) -> int:
    """Draws a study, writes its rows, and says what was found. A fault is status 1."""
    study.draw(arguments.to)
    if arguments.csv:
        study.write_csv(arguments.csv)
    for sentence in study.sentences():
        print(sentence)
    for fault in study.faults():
        print(fault, file=sys.stderr)
    return 1 if study.faults() else 0


def _depths(text: str) -> tuple[str, str]:
    least, colon, greatest = text.partition(":")
    if not colon:
        raise ValueFault(f"A range of levels is written as two depths in V, as 0.2:0.4, and not as {text!r}.")
    return least, greatest


def _add_moves(parser: argparse.ArgumentParser) -> None:
    parser.add_argument("--by", type=int, default=1, help="how many columns and lines of atoms a dot is moved (1)")
    parser.add_argument("--samples", type=int, default=0, help="how many layouts with several dots moved at once (0)")
    parser.add_argument("--at-once", type=int, default=2, help="how many dots these move (2)")
    parser.add_argument("--seed", type=int, default=0, help="the same seed draws the same samples (0)")


def _moves(gate: Gate, arguments: argparse.Namespace, by: int) -> Study:
    from .robustness import displacements

    drawn = {"samples": arguments.samples, "at_once": arguments.at_once, "seed": arguments.seed}
    return displacements(gate, by, **drawn, **_search(arguments, gate.layout))


def _add_displacements(parser: argparse.ArgumentParser) -> None:
    _add_gate(parser)
    _add_moves(parser)
    _add_results(parser, "displacements.svg")


def _displacements(arguments: argparse.Namespace) -> int:
    return _told(_moves(gate_of(arguments), arguments, arguments.by), arguments)


def _add_region(parser: argparse.ArgumentParser) -> None:
    parser.add_argument("--columns", type=int, default=8, help="so many columns round the dots (8)")
    parser.add_argument("--rows", type=int, default=4, help="so many dimer rows round the dots (4)")
    parser.add_argument("--step", type=int, default=1, help="every so many columns and lines of atoms (1)")


def _charged(gate: Gate, arguments: argparse.Namespace, charge: int) -> Study:
    from .robustness import Region, defects

    region = Region.around(gate.layout, arguments.columns, arguments.rows, arguments.step)
    return defects(gate, charge, region, **_search(arguments, gate.layout))


def _add_defects(parser: argparse.ArgumentParser) -> None:
    _add_gate(parser)
    parser.add_argument("--charge", type=int, default=-1, help="-3 to 3, not 0 (-1)")
    _add_region(parser)
    _add_results(parser, "defects.png")


def _defects(arguments: argparse.Namespace) -> int:
    return _told(_charged(gate_of(arguments), arguments, arguments.charge), arguments)


def _add_fit(parser: argparse.ArgumentParser) -> None:
    add_layout_arguments(parser)
    add_parameter_arguments(parser)
    parser.add_argument("--observed", required=True, help="a charge for each site in row order, as --observed=-0-")
    parser.add_argument("--grid", required=True, help="START:STEP:COUNT of permittivity, then of screening length in nm")
    parser.add_argument("--range", default="0.2:0.4", help="depths in V between which the level lies (0.2:0.4)")
    _add_results(parser, "fit.svg")


def _fit(arguments: argparse.Namespace) -> int:
    from .level_studies import fit

    layout = layout_of(arguments)
    grid, depths = Grid.parse(arguments.grid), _depths(arguments.range)
    return _told(fit(layout, arguments.observed, grid, depths, **_search(arguments, layout)), arguments)


def _add_domain3(parser: argparse.ArgumentParser) -> None:
    _add_gate(parser)
    parser.add_argument("--grid", required=True, help="START:STEP:COUNT of permittivity, then of screening length in nm")
    parser.add_argument("--range", default="0.2:0.4", help="depths in V between which the level lies (0.2:0.4)")
    _add_results(parser, "domain3.svg")


def _domain3(arguments: argparse.Namespace) -> int:
    from .level_studies import domain3

    gate = gate_of(arguments)
    grid, depths = Grid.parse(arguments.grid), _depths(arguments.range)
    return _told(domain3(gate, grid, depths, **_search(arguments, gate.layout)), arguments)


def _add_warmth(parser: argparse.ArgumentParser) -> None:
    parser.add_argument("--window", default="0.2", help="of the entries, in eV (0.2)")
    parser.add_argument("--at-least", default="0.9", help="the share of right entries that is asked for (0.9)")


def _add_temperatures(parser: argparse.ArgumentParser) -> None:
    _add_gate(parser)
    _add_warmth(parser)
    _add_results(parser, "temperatures.svg")


def _temperatures(arguments: argparse.Namespace) -> int:
    from .heat import temperatures

    gate = gate_of(arguments)
    found = temperatures(gate, arguments.window, at_least=arguments.at_least, **_search(arguments, gate.layout))
    return _told(found, arguments)


def _add_report(parser: argparse.ArgumentParser) -> None:
    _add_gate(parser)
    parser.add_argument("--to", default="gate.html", help="the page (gate.html)")
    parser.add_argument("--title", help="of the page; the layout's name where none is given")
    parser.add_argument("--grid", help="of the domain: START:STEP:COUNT of permittivity, then of screening length in nm")
    parser.add_argument("--range", help="depths in V between which the level lies, as 0.2:0.4")
    _add_warmth(parser)
    parser.add_argument("--displacements", type=int, metavar="BY", help="with dots up to so many places off")
    _add_moves(parser)
    parser.add_argument("--defects", type=int, metavar="CHARGE", help="with a fixed charge at the places round the dots")
    _add_region(parser)


def _report(arguments: argparse.Namespace) -> int:
    from .report import report

    gate = gate_of(arguments)
    studies = []
    if arguments.displacements is not None:
        studies.append(_moves(gate, arguments, arguments.displacements))
    if arguments.defects is not None:
        studies.append(_charged(gate, arguments, arguments.defects))
    made = report(
        gate, arguments.to, title=arguments.title, domain=Grid.parse(arguments.grid) if arguments.grid else None,
        levels=_depths(arguments.range) if arguments.range else None, window=arguments.window,
        at_least=arguments.at_least, studies=studies, **_search(arguments, gate.layout),
    )  # fmt: skip
    for fault in made.faults:
        print(fault, file=sys.stderr)
    print(f"{arguments.to}: {made.truth.verdict if made.truth else 'no answer'}")
    return 1 if made.faults else 0


#: Each command by its name.
STUDIES: dict[str, Command] = {
    "displacements": Command("whether a gate works with dots out of place", _add_displacements, _displacements),
    "defects": Command("whether a gate works with a charged defect nearby", _add_defects, _defects),
    "fit": Command("at which parameters an observed charge list is a ground state", _add_fit, _fit),
    "temperatures": Command("the share of right readings of a gate over kT", _add_temperatures, _temperatures),
    "domain3": Command("at which levels a gate works, over permittivity and screening length", _add_domain3, _domain3),
    "report": Command("writes one page on a gate", _add_report, _report),
}
