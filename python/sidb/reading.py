"""Reads the program's texts, line by line, as docs/FORMATS.md has them. What fits no line is a BadAnswer."""

from __future__ import annotations

import re
from decimal import Decimal
from typing import TypeVar

from .answers import (
    Cell,
    Entry,
    Interval,
    LevelEntry,
    Mark,
    Part,
    Share,
    Tile,
)
from .errors import BadAnswer
from .layout import SILICON, Fixed, Lattice, Layout, Place

_MARK = re.compile(
    r"(?P<certain>certain)|unresolved (?:"
    r"population (?P<site>\d+) (?P<test>above-minus|above-plus|below-minus|below-plus)"
    r"|hop (?P<start>\d+) (?P<end>\d+)"
    r"|rival (?P<entry>\d+)) (?P<least>-?\d+) (?P<greatest>-?\d+)"
)
_ENTRY = re.compile(rf"(?P<charges>[-0+]+|\.) (?:{_MARK.pattern})(?: energy (?P<low>-?\d+) (?P<high>-?\d+))?")
_VERDICT = re.compile(r"(works)|(fails|undecided|budget|long) (\d+)")
_CELL = re.compile(r"cell (\d+\.\d{4}) (\d+\.\d{4}) (.+)")
_TILE = re.compile(r"tile (\d+\.\d{4}) (\d+\.\d{4}) (\d+\.\d{4}) (\d+\.\d{4}) (.+)")
_SHARE = re.compile(r"([-0+]+|\.) (\d\.\d{9}) (\d\.\d{9})")

class Lines:
    """The lines of a text, taken one after another."""

    def __init__(self, text: str) -> None:
        self.lines = text.split("\n")
        self.at = 0

    def next(self) -> str:
        """The next line."""
        if self.at + 1 >= len(self.lines):
            raise BadAnswer(f"The program's answer ends at line {self.at + 1}, before it is whole.")
        self.at += 1
        return self.lines[self.at - 1]

    def peek(self) -> str:
        """The first word of the next line."""
        return self.lines[self.at].split(" ")[0]

    def bad(self) -> BadAnswer:
        """The fault of the line that was taken last."""
        return BadAnswer(
            f"Line {self.at} of the program's answer is not what it has to be: {self.lines[self.at - 1]!r}. "
            "Is the program of another version than this package?"
        )

    def words(self, head: str, count: int) -> list[str]:
        """The words behind ``head`` on the next line, so many of them."""
        words = self.next().split(" ")
        begins = head.split(" ")
        if words[: len(begins)] != begins or len(words) != len(begins) + count:
            raise self.bad()
        return words[len(begins):]

    def numbers(self, head: str, count: int) -> list[int]:
        """The whole numbers behind ``head`` on the next line."""
        return [self.number(word) for word in self.words(head, count)]

    def number(self, word: str) -> int:
        """A word as a whole number."""
        if not re.fullmatch(r"-?\d+", word):
            raise self.bad()
        return int(word)

    def match(self, pattern: re.Pattern[str]) -> re.Match[str]:
        """The next line, which the pattern has to match as a whole."""
        found = pattern.fullmatch(self.next())
        if found is None:
            raise self.bad()
        return found

    def end(self) -> None:
        """The line ``end``, and nothing behind it."""
        self.words("end", 0)
        if self.lines[self.at:] != [""]:
            raise BadAnswer(f"The program's answer goes on behind its end, at line {self.at + 1}.")


def form_of(text: str, kind: str) -> str:
    """The first line of a text of this kind, as "sidb-ground 2"."""
    first = text.split("\n", 1)[0]
    if not re.fullmatch(rf"{kind} \d+", first):
        raise BadAnswer(f"The program's answer begins with {first!r}, and not as a text of the kind {kind}.")
    return first


def mark_of(found: re.Match[str]) -> Mark:
    """The mark of a line that matches."""
    part = found.groupdict()
    if part["certain"]:
        return Mark("certain")
    slack = Interval(int(part["least"]), int(part["greatest"]))
    if part["test"]:
        return Mark("population", site=int(part["site"]), test=part["test"], slack=slack)
    if part["start"]:
        return Mark("hop", start=int(part["start"]), end=int(part["end"]), slack=slack)
    return Mark("rival", entry=int(part["entry"]), slack=slack)


def charges_of(word: str) -> str:
    """The charges of a charge text: ``.`` is that of no site."""
    return "" if word == "." else word


def entry_of(lines: Lines) -> Entry:
    """An entry line."""
    found = lines.match(_ENTRY)
    energy = Interval(int(found["low"]), int(found["high"])) if found["low"] else None
    return Entry(charges_of(found["charges"]), mark_of(found), energy)


def entries_of(lines: Lines, sites: int) -> tuple[Entry, ...]:
    """``entries E`` and the entry lines behind it, each with a charge a site."""
    (count,) = lines.numbers("entries", 1)
    return tuple(_sized(lines, entry_of(lines), sites) for _ in range(count))


HasCharges = TypeVar("HasCharges", Entry, Share, LevelEntry)


def _sized(lines: Lines, entry: HasCharges, sites: int) -> HasCharges:
    """The entry of the line that was taken last, which has a charge a site."""
    if len(entry.charges) != sites:
        raise lines.bad()
    return entry


def ground_part(lines: Lines) -> tuple[Layout, int, tuple[Entry, ...]]:
    """From ``sites N`` on, to the end: the layout, what was skipped, the entries."""
    (count,) = lines.numbers("sites", 1)
    lattice = Lattice(*lines.numbers("lattice", 6)) if lines.peek() == "lattice" else SILICON
    sites: list[Place] = []
    fixed: list[Fixed] = []
    while lines.peek() == "site":
        sites.append(Place(*lines.numbers(f"site {len(sites)}", 3)))
    while lines.peek() == "fix":
        fixed.append(Fixed(*lines.numbers(f"fix {len(fixed)}", 4)))
    if sites and len(sites) != count:
        raise lines.bad()
    (skipped,) = lines.numbers("skipped", 1)
    entries = entries_of(lines, count)
    lines.end()
    return Layout(tuple(sites), tuple(fixed), lattice), skipped, entries


def ground_of(text: str) -> tuple[Layout, int, tuple[Entry, ...]]:
    """A ground text."""
    form_of(text, "sidb-ground")
    lines = Lines(text)
    lines.next()
    return ground_part(lines)


def window_of(text: str) -> tuple[int, Layout, int, tuple[Entry, ...]]:
    """A window text: the window, and what a ground text has."""
    form_of(text, "sidb-window")
    lines = Lines(text)
    lines.next()
    (window,) = lines.numbers("window", 1)
    return window, *ground_part(lines)


def occupation_of(text: str) -> tuple[int, int, tuple[Share, ...]]:
    """An occupation text: the window, kT, the shares."""
    form_of(text, "sidb-occupation")
    lines = Lines(text)
    lines.next()
    (window,), (kt,) = lines.numbers("window", 1), lines.numbers("kt", 1)
    (sites,) = lines.numbers("sites", 1)
    (count,) = lines.numbers("entries", 1)
    shares = []
    for _ in range(count):
        charges, least, greatest = lines.match(_SHARE).groups()
        share = Share(charges_of(charges), int(least.replace(".", "")), int(greatest.replace(".", "")))
        shares.append(_sized(lines, share, sites))
    lines.end()
    return window, kt, tuple(shares)


def range_of(text: str) -> tuple[Part, ...]:
    """A range text."""
    form_of(text, "sidb-range")
    lines = Lines(text)
    lines.next()
    (sites,) = lines.numbers("sites", 1)
    (count,) = lines.numbers("parts", 1)
    parts = tuple(_part_of(lines, sites) for _ in range(count))
    lines.end()
    return parts


def _part_of(lines: Lines, sites: int) -> Part:
    words = lines.next().split(" ")
    if len(words) not in (4, 5) or words[0] != "part":
        raise lines.bad()
    first, last = lines.number(words[1]), lines.number(words[2])
    if words[3:] == ["split"]:
        return Part(first, last, None)
    if len(words) != 5 or words[3] != "entries":
        raise lines.bad()
    entries = []
    for _ in range(lines.number(words[4])):
        found = lines.match(re.compile(r"([-0+]+|\.) (certain|unresolved)"))
        entries.append(_sized(lines, LevelEntry(charges_of(found[1]), found[2] == "certain"), sites))
    return Part(first, last, tuple(entries))


class TableText:
    """A table of potentials, as it is read."""

    def __init__(self, lines: Lines) -> None:
        fixed_charges = lines.next() == "sidb-table 2"
        (self.sites,) = lines.numbers("sites", 1)
        count = lines.numbers("fixed", 1)[0] if fixed_charges else 0
        (self.base,) = lines.numbers("base", 1)
        self.mu_minus, self.mu_plus = lines.numbers("mu", 2)
        self.charges = tuple(lines.numbers("charge", 1)[0] for _ in range(count))
        self.classes: list[Interval] = []
        while lines.peek() == "class":
            self.classes.append(Interval(*lines.numbers("class", 2)))
        self.pairs = self._classes_of(lines, "pair")
        self.near = self._classes_of(lines, "near")
        lines.words("end", 0)

    def _classes_of(self, lines: Lines, head: str) -> dict[tuple[int, int], int]:
        found = {}
        while lines.peek() == head:
            one, other, number = lines.numbers(head, 3)
            if not 0 <= number < len(self.classes):
                raise lines.bad()
            found[one, other] = number
        return found


def table_of(text: str) -> TableText:
    """A table text."""
    form_of(text, "sidb-table")
    lines = Lines(text)
    table = TableText(lines)
    if lines.lines[lines.at:] != [""]:
        raise BadAnswer(f"The program's answer goes on behind its end, at line {lines.at + 1}.")
    return table


def certificate_of(text: str) -> tuple[tuple[Entry, ...], int]:
    """The entries of a certificate, and how many tokens it has; the tokens are the checker's to read."""
    form_of(text, "sidb-certificate")
    lines = Lines(text)
    lines.next()
    entries = entries_of(lines, TableText(lines).sites)
    lines.words("tokens", 0)
    if lines.lines[-2:] != ["end", ""]:
        raise BadAnswer("The program's certificate has no end.")
    return entries, len(lines.lines) - 2 - lines.at


def verdict_of(words: str) -> tuple[str, int | None] | None:
    """``works``, or ``fails P`` and the like: the verdict and the pattern."""
    found = _VERDICT.fullmatch(words)
    if found is None:
        return None
    return (found[1], None) if found[1] else (found[2], int(found[3]))


PatternLines = tuple[int, int, str, tuple[Entry, ...]]


def truth_of(text: str) -> tuple[list[PatternLines], str, int | None]:
    """A truth text: number, wanted value, verdict and entries of each pattern; the verdict, and its pattern."""
    form_of(text, "sidb-truth")
    lines = Lines(text)
    lines.next()
    lines.words("function", 1)
    lines.numbers("inputs", 1)
    lines.numbers("outputs", 1)
    patterns = []
    while lines.peek() == "pattern":
        patterns.append(_pattern_of(lines))
    verdict = _verdict(lines, lines.next().removeprefix("verdict "))
    lines.end()
    return patterns, *verdict


def _pattern_of(lines: Lines) -> PatternLines:
    found = lines.match(re.compile(r"pattern (\d+) wants ([01]) (works|fails|undecided) entries (\d+)"))
    entries = tuple(entry_of(lines) for _ in range(int(found[4])))
    return int(found[1]), int(found[2]), found[3], entries


def _verdict(lines: Lines, words: str) -> tuple[str, int | None]:
    verdict = verdict_of(words)
    if verdict is None:
        raise lines.bad()
    return verdict


def domain_of(text: str) -> tuple[Cell, ...]:
    """A domain text."""
    form_of(text, "sidb-domain")
    lines = Lines(text)
    lines.next()
    cells = []
    while lines.peek() == "cell":
        eps, lam, *answer = lines.match(_CELL).groups()
        cells.append(Cell(Decimal(eps), Decimal(lam), *_verdict(lines, answer[0])))
    lines.end()
    return tuple(cells)


def region_of(text: str) -> tuple[tuple[Tile, ...], int, int, int]:
    """A region text: tiles, and the areas that work, fail and are open."""
    form_of(text, "sidb-region")
    lines = Lines(text)
    lines.next()
    tiles = []
    while lines.peek() == "tile":
        *ends, answer = lines.match(_TILE).groups()
        eps, far_eps, lam, far_lam = map(Decimal, ends)
        tiles.append(Tile((eps, far_eps), (lam, far_lam), *_verdict(lines, answer)))
    works, fails, left = (lines.numbers(name, 1)[0] for name in ("works", "fails", "open"))
    lines.end()
    return tuple(tiles), works, fails, left


def gen_of(text: str) -> dict[str, int]:
    """A gen text, by the names of its lines."""
    form_of(text, "sidb-gen")
    lines = Lines(text)
    lines.next()
    found = {name: lines.numbers(name, 1)[0] for name in ("number", "sites", "nodes", "entries", "certain")}
    lines.end()
    return found
