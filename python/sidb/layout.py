"""Layouts: dots and fixed charges at places of a lattice, and gates on them.

A place is (n, m, l): column, dimer row, and atom of the dimer (0 or 1). Lattice vectors and positions are whole
numbers of 10^-2 Å.
"""

from __future__ import annotations

from collections.abc import Collection, Iterable, Iterator, Sequence
from dataclasses import dataclass, replace
from decimal import Decimal
from pathlib import Path
from typing import TYPE_CHECKING, Any, NamedTuple

from .errors import FileFault, ValueFault
from .parameters import Number, Parameters, decimal_of, whole_of, word_of

if TYPE_CHECKING:
    from . import answers

#: The most bytes that the program reads.
MOST_BYTES = 1_048_576


class Place(NamedTuple):
    """A place of the lattice: column ``n``, dimer row ``m``, atom ``l`` of the dimer (0 or 1)."""

    n: int
    m: int
    l: int  # noqa: E741 (the field's own name for it)


class Fixed(NamedTuple):
    """A fixed charge of ``charge`` elementary charges (-3 to 3, not 0) at a place."""

    n: int
    m: int
    l: int  # noqa: E741
    charge: int

    @property
    def place(self) -> Place:
        """Where it stands."""
        return Place(self.n, self.m, self.l)


class Lattice(NamedTuple):
    """Three vectors in 10^-2 Å: from column to column, from row to row, and to the second atom of a dimer."""

    ax: int
    ay: int
    bx: int
    by: int
    cx: int
    cy: int

    def position(self, place: Place) -> tuple[int, int]:
        """Where the place lies, in 10^-2 Å."""
        n, m, atom = place[:3]
        return n * self.ax + m * self.bx + atom * self.cx, n * self.ay + m * self.by + atom * self.cy


#: H-Si(100)-2x1: 3.84 Å along a row, 7.68 Å between rows, 2.25 Å between the atoms of a dimer.
SILICON = Lattice(384, 0, 0, 768, 0, 225)


def _whole_numbers(given: Iterable[int], count: int, what: str) -> tuple[int, ...]:
    try:
        numbers = tuple(given)
    except TypeError:
        raise ValueFault(f"{what} has to be {count} whole numbers, and is {given!r}.") from None
    if isinstance(given, str) or len(numbers) != count:
        raise ValueFault(f"{what} has to be {count} whole numbers, and is {given!r}.")
    return tuple(whole_of(number, f"A number of {what.lower()}") for number in numbers)


def place_of(given: Iterable[int]) -> Place:
    """A place out of any three whole numbers."""
    return Place(*_whole_numbers(given, 3, "A site"))


def row_order(place: Sequence[int]) -> tuple[int, int, int]:
    """By this sites are numbered: by row, then atom, then column."""
    return place[1], place[2], place[0]


@dataclass(frozen=True)
class Layout:
    """Dots and fixed charges on a lattice.

    ``sites`` are put into row order, so that ``sites[i]`` is the site that the program numbers i; ``fixed`` too.
    ``parameters`` are what a task takes where it is given none; ``name`` is for titles and faults; ``left_out``
    names, one sentence each, what a file had and this layout has not.
    """

    sites: tuple[Place, ...]
    fixed: tuple[Fixed, ...] = ()
    lattice: Lattice = SILICON
    name: str = ""
    parameters: Parameters = Parameters()
    left_out: tuple[str, ...] = ()

    def __post_init__(self) -> None:
        sites = sorted((place_of(site) for site in self.sites), key=row_order)
        fixed = sorted((Fixed(*_whole_numbers(f, 4, "A fixed charge")) for f in self.fixed), key=row_order)
        object.__setattr__(self, "sites", tuple(sites))
        object.__setattr__(self, "fixed", tuple(fixed))
        object.__setattr__(self, "lattice", Lattice(*_whole_numbers(self.lattice, 6, "A lattice")))
        object.__setattr__(self, "left_out", tuple(self.left_out))

    def text(self) -> str:
        """The sites text that the program reads."""
        lines = [] if self.lattice == SILICON else ["lattice " + " ".join(map(str, self.lattice))]
        lines += ["{} {} {}".format(*site) for site in self.sites]
        lines += ["fix {} {} {} {}".format(*fix) for fix in self.fixed]
        return "".join(line + "\n" for line in lines)

    @classmethod
    def from_sites_text(cls, text: str, name: str = "") -> Layout:
        """The layout of a sites text. A line that is none of a sites text is a FileFault that names it."""
        return _SitesText(text, name).layout()

    @classmethod
    def from_sqd_text(cls, text: bytes | str, name: str = "", leave_out: Collection[str] = ()) -> Layout:
        """The layout of the bytes of a SiQAD file; see ``read_sqd``."""
        from .sqd import layout_of_sqd

        return layout_of_sqd(text, name, leave_out)

    def with_sites(self, sites: Iterable[Iterable[int]]) -> Layout:
        """The same with these sites in place of its own."""
        return replace(self, sites=tuple(place_of(site) for site in sites))

    def with_fixed(self, *fixed: Iterable[int]) -> Layout:
        """The same with these fixed charges (n, m, l, charge) besides its own."""
        return replace(self, fixed=self.fixed + tuple(Fixed(*fix) for fix in fixed))

    def with_parameters(self, parameters: Parameters) -> Layout:
        """The same with other parameters for tasks that are given none."""
        return replace(self, parameters=parameters)

    def renamed(self, name: str) -> Layout:
        """The same with another name."""
        return replace(self, name=name)

    def moved(self, site: int, place: Iterable[int]) -> Layout:
        """The same with one site at another place; sites are numbered anew."""
        self._has(site)
        return self.with_sites(place if i == site else at for i, at in enumerate(self.sites))

    def without(self, *sites: int) -> Layout:
        """The same without these sites (numbers); the others are numbered anew."""
        for site in sites:
            self._has(site)
        return self.with_sites(at for i, at in enumerate(self.sites) if i not in sites)

    def translated(self, columns: int, rows: int) -> Layout:
        """The same, so many columns and rows on."""
        sites = tuple(Place(n + columns, m + rows, atom) for n, m, atom in self.sites)
        fixed = tuple(Fixed(n + columns, m + rows, atom, q) for n, m, atom, q in self.fixed)
        return replace(self, sites=sites, fixed=fixed)

    def number_of(self, place: Iterable[int]) -> int:
        """The number of the site at this place."""
        wanted = place_of(place)
        if wanted not in self.sites:
            raise ValueFault(f"There is no site at {tuple(wanted)}{self._of()}.")
        return self.sites.index(wanted)

    def position(self, site: int) -> tuple[int, int]:
        """Where a site lies, in 10^-2 Å."""
        return self.lattice.position(self.sites[site])

    def free_places(self, columns: int, rows: int) -> list[Place]:
        """The places of the lattice where no site and no fixed charge is, from so many columns and rows before the
        first to so many behind the last, in row order. Places nearer than 2.25 Å to a taken one count as taken on
        a lattice other than silicon's, as the program refuses them."""
        taken = [*self.sites, *(fix.place for fix in self.fixed)]
        if not taken:
            return []
        ns, ms = [place.n for place in taken], [place.m for place in taken]
        around = (
            Place(n, m, atom)
            for m in range(min(ms) - rows, max(ms) + rows + 1)
            for atom in (0, 1)
            for n in range(min(ns) - columns, max(ns) + columns + 1)
        )
        return [place for place in around if self.is_free(place)]

    def is_free(self, place: Iterable[int]) -> bool:
        """Whether a dot or a fixed charge can be put there: nothing stands there, nor, on a lattice other than
        silicon's, any closer than 2.25 Å."""
        wanted = place_of(place)
        taken = [*self.sites, *(fix.place for fix in self.fixed)]
        if self.lattice == SILICON:
            return wanted not in taken
        x, y = self.lattice.position(wanted)
        apart = ((x - u) ** 2 + (y - v) ** 2 for u, v in map(self.lattice.position, taken))
        return all(distance >= 225 * 225 for distance in apart)

    def _has(self, site: int) -> None:
        if not 0 <= whole_of(site, "The number of a site") < len(self.sites):
            raise ValueFault(f"There is no site {site}{self._of()}: it has {len(self.sites)}, counted from 0.")

    def _of(self) -> str:
        return f" in {self.name}" if self.name else " in the layout"

    def ground(self, *args: Any, **kwargs: Any) -> answers.GroundAnswer:
        """``tasks.ground`` of this layout."""
        from . import tasks

        return tasks.ground(self, *args, **kwargs)

    def window(self, *args: Any, **kwargs: Any) -> answers.WindowAnswer:
        """``tasks.window`` of this layout."""
        from . import tasks

        return tasks.window(self, *args, **kwargs)

    def occupation(self, *args: Any, **kwargs: Any) -> answers.OccupationAnswer:
        """``tasks.occupation`` of this layout."""
        from . import tasks

        return tasks.occupation(self, *args, **kwargs)

    def level_range(self, *args: Any, **kwargs: Any) -> answers.RangeAnswer:
        """``tasks.level_range`` of this layout."""
        from . import tasks

        return tasks.level_range(self, *args, **kwargs)

    def potentials(self, *args: Any, **kwargs: Any) -> answers.PotentialsAnswer:
        """``tasks.potentials`` of this layout."""
        from . import tasks

        return tasks.potentials(self, *args, **kwargs)

    def certify(self, *args: Any, **kwargs: Any) -> answers.CertificateAnswer:
        """``tasks.certify`` of this layout."""
        from . import tasks

        return tasks.certify(self, *args, **kwargs)

    def gate(self, inputs: Any, outputs: Any, function: str) -> Gate:
        """A gate on this layout."""
        return Gate(self, inputs, outputs, function)

    def draw(self, *args: Any, **kwargs: Any) -> Any:
        """``pictures.draw`` of this layout; a figure of matplotlib."""
        from . import pictures

        return pictures.draw(self, *args, **kwargs)


class _SitesText:
    """Reads a sites text, as docs/FORMATS.md has it. Ranges are left to the program."""

    def __init__(self, text: str, name: str) -> None:
        self.name = name or "sites text"
        self.lines = text.split("\n")
        self.sites: list[Place] = []
        self.fixed: list[Fixed] = []
        self.lattice: Lattice | None = None

    def layout(self) -> Layout:
        for number, line in enumerate(self.lines, start=1):
            words = line.removesuffix("\r").replace("\t", " ").split(" ")
            words = [word for word in words if word]
            if words and not words[0].startswith("#") and not self._takes(words):
                raise FileFault(f"{self.name}, line {number}: {line.strip()!r} is no site, fixed charge or lattice.")
        return Layout(tuple(self.sites), tuple(self.fixed), self.lattice or SILICON, self.name)

    def _takes(self, words: list[str]) -> bool:
        head = words[0] if words[0] in ("fix", "lattice") else ""
        numbers = [_number(word) for word in words[bool(head):]]
        if None in numbers:
            return False
        whole = [number for number in numbers if number is not None]
        if head == "" and len(whole) == 3:
            self.sites.append(Place(*whole))
        elif head == "fix" and len(whole) == 4:
            self.fixed.append(Fixed(*whole))
        elif head == "lattice" and len(whole) == 6 and self.lattice is None:
            self.lattice = Lattice(*whole)
        else:
            return False
        return True


def _number(word: str) -> int | None:
    digits = word.removeprefix("-")
    return int(word) if digits.isascii() and digits.isdigit() and len(digits) <= 9 else None


def read_bytes(path: str | Path, most: int = MOST_BYTES) -> bytes:
    """The bytes of a file that has at most ``most``."""
    try:
        with open(path, "rb") as file:
            found = file.read(most + 1)
    except OSError as fault:
        raise FileFault(f"{path} cannot be read: {fault.strerror}.") from fault
    if len(found) > most:
        raise FileFault(f"{path} has more than {most} bytes, the most that the program reads.")
    return found


def read_sites(path: str | Path) -> Layout:
    """The layout of a file with a sites text."""
    try:
        text = read_bytes(path).decode("utf-8")
    except UnicodeDecodeError as fault:
        raise FileFault(f"{path} is no text: byte {fault.start} is not UTF-8.") from fault
    return Layout.from_sites_text(text, Path(path).stem)


def read_sqd(path: str | Path, leave_out: Collection[str] = ()) -> Layout:
    """The layout of a file that SiQAD saved.

    Takes the dots; the vectors of the lattice; charged defects as fixed charges; and the parameters of a simulation.
    Refuses, by a FileFault, what a layout cannot hold. Three things are refused unless ``leave_out`` names them:
    "electrodes"; "screening", a permittivity or screening length of a defect's own; "physloc", positions in Å that
    are not those of the places. ``left_out`` of the layout names what counts for nothing.
    """
    return Layout.from_sqd_text(read_bytes(path), Path(path).stem, leave_out)


#: The values of each function for the patterns in their order, by the number of inputs.
FUNCTIONS: dict[int, dict[str, str]] = {
    1: {"zero": "00", "buf": "01", "not": "10", "one": "11"},
    2: {
        "zero": "0000", "and": "0001", "gt": "0010", "a": "0011", "lt": "0100", "b": "0101", "xor": "0110",
        "or": "0111", "nor": "1000", "xnor": "1001", "notb": "1010", "ge": "1011", "nota": "1100", "le": "1101",
        "nand": "1110", "one": "1111",
    },
}  # fmt: skip

Pair = tuple[int, int]


@dataclass(frozen=True)
class Gate:
    """A layout, pairs of its sites as inputs and outputs, and the function that it is to compute.

    Of an input pair (a, b) site a alone is there for a 0, b alone for a 1; the first input is the more significant
    bit of a pattern. An output pair (a, b) reads 0 where a alone is negative, 1 where b alone is. Sites may be
    given as numbers or as places, and are kept as numbers of ``layout``.
    """

    layout: Layout
    inputs: tuple[Pair, ...]
    outputs: tuple[Pair, ...]
    function: str

    def __post_init__(self) -> None:
        for name in ("inputs", "outputs"):
            pairs = tuple(self._pair(pair, name) for pair in getattr(self, name))
            object.__setattr__(self, name, pairs)
        if self.function not in FUNCTIONS.get(len(self.inputs), {}):
            known = ", ".join(FUNCTIONS.get(len(self.inputs), {})) or "none"
            raise ValueFault(
                f"{self.function!r} is no function of {len(self.inputs)} inputs. There are: {known}."
            )

    def _pair(self, pair: Any, name: str) -> Pair:
        if isinstance(pair, str) or len(pair) != 2:
            raise ValueFault(f"One of the {name} has to be a pair of sites, and is {pair!r}.")
        first, second = (self.layout.number_of(s) if not isinstance(s, int) else whole_of(s, "A site") for s in pair)
        return first, second

    @classmethod
    def parse(cls, layout: Layout, inputs: str, outputs: str, function: str) -> Gate:
        """A gate out of the program's own words: ``Gate.parse(layout, "0:2,1:3", "20:21", "or")``."""
        return cls(layout, _pairs_of(inputs), _pairs_of(outputs), function)

    @property
    def patterns(self) -> int:
        """How many patterns its inputs have."""
        return int(2 ** len(self.inputs))

    def value(self, pattern: int) -> int:
        """What the function gives for a pattern: 0 or 1."""
        return int(FUNCTIONS[len(self.inputs)][self.function][pattern])

    def numbers_of(self, pattern: int) -> tuple[int, ...]:
        """The numbers, in ``layout``, of the sites that a pattern leaves, rising: the program numbers them anew."""
        absent = set()
        for place, (zero, one) in enumerate(self.inputs):
            bit = pattern >> (len(self.inputs) - 1 - place) & 1
            absent.add(zero if bit else one)
        return tuple(i for i in range(len(self.layout.sites)) if i not in absent)

    def layout_of(self, pattern: int) -> Layout:
        """The layout that a pattern leaves."""
        left = self.layout.with_sites(self.layout.sites[i] for i in self.numbers_of(pattern))
        return left.renamed(f"{self.layout.name or 'gate'}, pattern {pattern}")

    def bits_of(self, pattern: int) -> str:
        """The bits of the inputs under a pattern, as "01"."""
        return f"{pattern:0{len(self.inputs)}b}"

    def words(self) -> tuple[str, ...]:
        """The words of the program for it."""
        return ("--input", _pairs_text(self.inputs), "--output", _pairs_text(self.outputs), "--function", self.function)

    def on(self, layout: Layout, place_now: Any = None) -> Gate:
        """The same gate on another layout: its pairs are those at the same places, or at ``place_now(place)``."""
        at = place_now or (lambda place: place)
        pairs = [
            [tuple(at(self.layout.sites[site]) for site in pair) for pair in pairs]
            for pairs in (self.inputs, self.outputs)
        ]
        return Gate(layout, pairs[0], pairs[1], self.function)  # type: ignore[arg-type]

    def moved(self, site: int, place: Iterable[int]) -> Gate:
        """The same gate with one of its sites at another place."""
        old, new = self.layout.sites[site], place_of(place)
        return self.on(self.layout.moved(site, new), lambda at: new if at == old else at)

    def with_fixed(self, *fixed: Iterable[int]) -> Gate:
        """The same gate with further fixed charges (n, m, l, charge)."""
        return replace(self, layout=self.layout.with_fixed(*fixed))

    def with_layout(self, layout: Layout) -> Gate:
        """The same numbers of sites on another layout (of other parameters, or name)."""
        return replace(self, layout=layout)

    def truth(self, *args: Any, **kwargs: Any) -> answers.TruthAnswer:
        """``tasks.truth`` of this gate."""
        from . import tasks

        return tasks.truth(self, *args, **kwargs)

    def domain(self, *args: Any, **kwargs: Any) -> answers.DomainAnswer:
        """``tasks.domain`` of this gate."""
        from . import tasks

        return tasks.domain(self, *args, **kwargs)

    def region(self, *args: Any, **kwargs: Any) -> answers.RegionAnswer:
        """``tasks.region`` of this gate."""
        from . import tasks

        return tasks.region(self, *args, **kwargs)

    def draw(self, *args: Any, **kwargs: Any) -> Any:
        """``pictures.draw`` of this gate; a figure of matplotlib."""
        from . import pictures

        return pictures.draw(self, *args, **kwargs)


def _pairs_of(text: str) -> tuple[Pair, ...]:
    pairs = [[_number(word) for word in pair.split(":")] for pair in text.split(",")]
    if any(len(pair) != 2 or None in pair for pair in pairs):
        raise ValueFault(f"Pairs of sites are written as 0:2,1:3, and not as {text!r}.")
    return tuple((pair[0], pair[1]) for pair in pairs)  # type: ignore[misc]


def _pairs_text(pairs: Iterable[Pair]) -> str:
    return ",".join(f"{first}:{second}" for first, second in pairs)


@dataclass(frozen=True)
class Axis:
    """``count`` values from ``start`` on, ``step`` apart; exact decimals of at most 4 places."""

    start: Decimal
    step: Decimal
    count: int

    def __post_init__(self) -> None:
        object.__setattr__(self, "start", decimal_of(self.start, "The start of a grid"))
        object.__setattr__(self, "step", decimal_of(self.step, "The step of a grid"))
        if whole_of(self.count, "The count of a grid") < 1:
            raise ValueFault(f"The count of a grid has to be at least 1, and is {self.count}.")

    def values(self) -> tuple[Decimal, ...]:
        """All of them, rising."""
        return tuple(self.start + i * self.step for i in range(self.count))

    def word(self) -> str:
        """As the program reads it: START:STEP:COUNT."""
        return f"{word_of(self.start, 'start')}:{word_of(self.step, 'step')}:{self.count}"

    def cut(self, pieces: int) -> list[Axis]:
        """The same values as so many axes, or as many as there are values; lengths differ by at most one."""
        pieces = max(1, min(pieces, self.count))
        bounds = [self.count * i // pieces for i in range(pieces + 1)]
        return [
            Axis(self.start + first * self.step, self.step, last - first)
            for first, last in zip(bounds, bounds[1:])
        ]


@dataclass(frozen=True)
class Grid:
    """A grid over relative permittivity (``eps``) and screening length in nm (``lam``)."""

    eps: Axis
    lam: Axis

    @classmethod
    def of(cls, eps: tuple[Number, Number, int], lam: tuple[Number, Number, int]) -> Grid:
        """A grid of (start, step, count) for both: ``Grid.of(("5.2", "0.4", 3), ("4.5", "0.5", 3))``."""
        return cls(Axis(*eps), Axis(*lam))  # type: ignore[arg-type]

    @classmethod
    def parse(cls, text: str) -> Grid:
        """A grid out of the program's own word: ``Grid.parse("5.2:0.4:3,4.5:0.5:3")``."""
        axes = [part.split(":") for part in text.split(",")]
        if len(axes) != 2 or any(len(axis) != 3 or _number(axis[2]) is None for axis in axes):
            raise ValueFault(f"A grid is written as 5.2:0.4:3,4.5:0.5:3, and not as {text!r}.")
        made = [Axis(axis[0], axis[1], int(axis[2])) for axis in axes]  # type: ignore[arg-type]
        return cls(*made)

    def word(self) -> str:
        """As the program reads it."""
        return f"{self.eps.word()},{self.lam.word()}"

    def points(self) -> Iterator[tuple[Decimal, Decimal]]:
        """Each (eps, lam), eps outer and lam inner, as the program goes through them."""
        return ((eps, lam) for eps in self.eps.values() for lam in self.lam.values())

    def cut(self, eps: int, lam: int) -> list[Grid]:
        """The same points as eps times lam grids, eps outer."""
        return [Grid(e, x) for e in self.eps.cut(eps) for x in self.lam.cut(lam)]


@dataclass(frozen=True)
class Table:
    """A table of potentials as text, as ``--task potentials`` prints it; base and levels are in it."""

    text: str
    name: str = "table"
    parameters: Parameters = Parameters()
