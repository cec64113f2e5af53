"""For people who write no Python: ``python -m sidb draw|map|sweep|from-sqd ..``."""

from __future__ import annotations

import argparse
import sys
from collections.abc import Sequence
from concurrent.futures import Executor
from pathlib import Path
from typing import Any

from . import sweeps, tasks
from .answers import Cell, GroundAnswer
from .commands import (
    Command,
    add_gate_arguments,
    add_layout_arguments,
    add_parameter_arguments,
    gate_of,
    layout_of,
    parameters_of,
)
from .errors import SidbError
from .layout import Grid, Layout, read_sqd
from .parameters import DECIMAL_WORDS, Parameters
from .sqd import CAN_LEAVE_OUT
from .tasks import Settings


def _add_draw(parser: argparse.ArgumentParser) -> None:
    add_layout_arguments(parser)
    add_gate_arguments(parser, required=False)
    add_parameter_arguments(parser)
    parser.add_argument("--to", default="picture.svg", help="the picture: .svg, .png or .pdf (picture.svg)")
    parser.add_argument("--entry", type=int, default=0, help="which charge list is drawn (0)")


def _draw(arguments: argparse.Namespace) -> int:
    gate = gate_of(arguments) if arguments.input else None
    layout = gate.layout if gate else layout_of(arguments)
    settings: Settings = {"parameters": parameters_of(arguments, layout), "limit": arguments.limit, "program": arguments.program}
    if gate:
        truth = tasks.truth(gate, **settings)
        truth.draw(path=arguments.to)
        for row in truth.rows():
            print("{pattern} wants {wants}: {verdict}, {charges}".format(**row))
        print(f"verdict: {truth.verdict}")
    else:
        answer = tasks.ground(layout, **settings)
        answer.draw(arguments.entry, arguments.to)
        _print_ground(answer)
    return 0


def _print_ground(answer: GroundAnswer) -> None:
    for number, entry in enumerate(answer.entries):
        least, greatest = entry.energy.ev if entry.energy else ("", "")
        print(f"{number}: {entry.charges}, {entry.mark.in_words()}, energy {least} to {greatest} eV")


def _add_map(parser: argparse.ArgumentParser) -> None:
    add_layout_arguments(parser)
    add_gate_arguments(parser)
    add_parameter_arguments(parser)
    parser.add_argument("--grid", required=True, help="START:STEP:COUNT of permittivity, then of screening length in nm")
    parser.add_argument("--to", default="map.svg", help="the picture (map.svg)")
    parser.add_argument("--csv", help="a table of the cells")


def _map(arguments: argparse.Namespace) -> int:
    gate = gate_of(arguments)
    answer = sweeps.cut_domain(
        gate, Grid.parse(arguments.grid), parameters=parameters_of(arguments, gate.layout), limit=arguments.limit,
        program=arguments.program,
    )  # fmt: skip
    answer.draw(path=arguments.to)
    if arguments.csv:
        sweeps.write_csv(answer.rows(), arguments.csv)
    counts = {verdict: sum(cell.verdict == verdict for cell in answer.cells) for verdict in _verdicts(answer.cells)}
    print(", ".join(f"{verdict} {count}" for verdict, count in counts.items()))
    for fault in answer.faults:
        print(fault, file=sys.stderr)
    return 1 if answer.faults else 0


def _verdicts(cells: Sequence[Cell]) -> list[str]:
    return list(dict.fromkeys(cell.verdict for cell in cells))


def _add_sweep(parser: argparse.ArgumentParser) -> None:
    parser.add_argument("layouts", nargs="+", help="files of SiQAD (.sqd), or of sites")
    parser.add_argument("--leave-out", action="append", default=[], choices=CAN_LEAVE_OUT, help="of files of SiQAD")
    parser.add_argument("--program", help="the built program; else SIDB, the PATH, or the checkout")
    parser.add_argument("--csv", default="-", help="where the rows go (standard output)")
    parser.add_argument("--vary", action="append", default=[], help="a parameter's values, as eps=5.2,5.6,6.0")
    parser.add_argument("--cluster", help="the address of a scheduler of dask.distributed")
    add_parameter_arguments(parser)


def _sweep(arguments: argparse.Namespace) -> int:
    layouts = [layout_of(argparse.Namespace(layout=path, leave_out=arguments.leave_out)) for path in arguments.layouts]
    varied = _varied([parameters_of(arguments, Layout(()))], arguments.vary) if _is_given(arguments) else None
    options = {} if arguments.limit is None else {"limit": arguments.limit}
    executor = _cluster(arguments.cluster) if arguments.cluster else None
    done = sweeps.sweep(layouts, varied, executor, options=options, program=arguments.program)
    done.write_csv(sys.stdout if arguments.csv == "-" else arguments.csv)
    for point in done.faults:
        print(f"point {point.number}: {point.fault.words}" if point.fault else "", file=sys.stderr)
    return 1 if done.faults else 0


def _is_given(arguments: argparse.Namespace) -> bool:
    return bool(arguments.vary) or any(getattr(arguments, name) is not None for name in (*DECIMAL_WORDS, "base"))


def _varied(parameters: list[Parameters], vary: Sequence[str]) -> list[Parameters]:
    for text in vary:
        name, _, values = text.partition("=")
        if name not in DECIMAL_WORDS or not values:
            raise SidbError(f"--vary takes a name and values, as eps=5.2,5.6; names are {', '.join(DECIMAL_WORDS)}.")
        parameters = [one.with_(**{name: value}) for one in parameters for value in values.split(",")]
    return parameters


def _cluster(address: str) -> Executor:
    import distributed

    client: Any = distributed
    executor: Executor = client.Client(address).get_executor()
    return executor


def _add_from_sqd(parser: argparse.ArgumentParser) -> None:
    add_layout_arguments(parser)


def _from_sqd(arguments: argparse.Namespace) -> int:
    layout = read_sqd(arguments.layout, arguments.leave_out)
    words = " ".join(layout.parameters.words())
    print(f"# from {Path(arguments.layout).name}" + (f"; words of the program: {words}" if words else ""))
    for sentence in layout.left_out:
        print(f"# {sentence}")
    print(layout.text(), end="")
    return 0


#: Each command by its name.
COMMANDS: dict[str, Command] = {
    "draw": Command("draws the ground list of a layout, or the patterns of a gate", _add_draw, _draw),
    "map": Command("draws where a gate works, over permittivity and screening length", _add_map, _map),
    "sweep": Command("writes the ground lists of many layouts at many parameters as rows", _add_sweep, _sweep),
    "from-sqd": Command("writes the sites text of a file of SiQAD, and what of it is left out", _add_from_sqd, _from_sqd),
}


def _all_commands() -> dict[str, Command]:
    try:
        from .commands_studies import STUDIES
    except ImportError:
        return COMMANDS
    return {**COMMANDS, **STUDIES}


def main(words: Sequence[str] | None = None) -> int:
    """Runs one command; a fault is a line on standard error and status 1."""
    parser = argparse.ArgumentParser(prog="python -m sidb", description=__doc__)
    rows = parser.add_subparsers(dest="command", required=True, metavar="COMMAND")
    commands = _all_commands()
    for name, command in commands.items():
        command.add_arguments(rows.add_parser(name, help=command.help, description=command.help))
    arguments = parser.parse_args(words)
    try:
        return commands[arguments.command].run(arguments)
    except SidbError as fault:
        print(f"sidb: {fault}", file=sys.stderr)
        return 1


if __name__ == "__main__":
    sys.exit(main())
