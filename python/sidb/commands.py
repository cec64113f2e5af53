"""What the rows of the command line share: their form, and the arguments for layouts, gates and parameters."""

from __future__ import annotations

import argparse
import sys
from collections.abc import Callable
from dataclasses import dataclass
from pathlib import Path

from .layout import Gate, Layout, read_sites, read_sqd
from .parameters import DECIMAL_WORDS, DEFAULTS, Parameters
from .sqd import CAN_LEAVE_OUT


@dataclass(frozen=True)
class Command:
    """A row of the command line: a line of help, what adds its arguments, and what runs it and gives the status."""

    help: str
    add_arguments: Callable[[argparse.ArgumentParser], None]
    run: Callable[[argparse.Namespace], int]


def add_layout_arguments(parser: argparse.ArgumentParser) -> None:
    """The file of a layout, and what is left out of a file of SiQAD."""
    parser.add_argument("layout", help="a file of SiQAD (.sqd), or of sites")
    parser.add_argument("--leave-out", action="append", default=[], choices=CAN_LEAVE_OUT, help="of a file of SiQAD")
    parser.add_argument("--program", help="the built program; else SIDB, the PATH, or the checkout")


def layout_of(arguments: argparse.Namespace) -> Layout:
    """The layout that the arguments name; says on standard error what of a file is left out."""
    path = Path(arguments.layout)
    layout = read_sqd(path, arguments.leave_out) if path.suffix.lower() == ".sqd" else read_sites(path)
    for sentence in layout.left_out:
        print(f"{path}: {sentence}", file=sys.stderr)
    return layout


def add_gate_arguments(parser: argparse.ArgumentParser, required: bool = True) -> None:
    """The pairs of sites and the function of a gate, in the program's own words."""
    parser.add_argument("--input", required=required, help="pairs of sites, as 0:2,1:3")
    parser.add_argument("--output", required=required, help="pairs of sites, as 20:21")
    parser.add_argument("--function", required=required, help="a name, as or")


def gate_of(arguments: argparse.Namespace) -> Gate:
    """The gate that the arguments name."""
    return Gate.parse(layout_of(arguments), arguments.input, arguments.output, arguments.function)


def add_parameter_arguments(parser: argparse.ArgumentParser) -> None:
    """The parameters, in the program's own words; what is not given is taken from the layout's file."""
    for name, word in DECIMAL_WORDS.items():
        parser.add_argument(word, dest=name, help=f"{getattr(DEFAULTS, name)} where nothing is given")
    parser.add_argument("--base", type=int, choices=(2, 3))
    parser.add_argument("--limit", type=int, help="the most nodes of the search tree")


def parameters_of(arguments: argparse.Namespace, layout: Layout) -> Parameters:
    """The layout's parameters, with those that are given in their place."""
    given = {name: getattr(arguments, name) for name in (*DECIMAL_WORDS, "base")}
    return layout.parameters.with_(**{name: value for name, value in given.items() if value is not None})
