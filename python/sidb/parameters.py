"""The numbers of the model that a user chooses, as exact decimals."""

from __future__ import annotations

from collections.abc import Iterator
from dataclasses import dataclass, replace
from decimal import Decimal, InvalidOperation

from .errors import ValueFault

#: What is taken where a decimal is asked for. A float counts as the shortest text that means it: 5.6 is 5.6.
Number = Decimal | int | str | float


def decimal_of(value: Number, name: str) -> Decimal:
    """``value`` as an exact decimal; ``name`` is the word for it in a fault."""
    if isinstance(value, bool) or not isinstance(value, (Decimal, int, str, float)):
        raise ValueFault(f"{name} has to be a number, and is {value!r}.")
    try:
        made = Decimal(repr(value) if isinstance(value, float) else value)
    except InvalidOperation:
        raise ValueFault(f"{name} has to be a number, and is {value!r}.") from None
    if not made.is_finite() or made.adjusted() > 20 or int(made.as_tuple().exponent) < -30:
        raise ValueFault(f"{name} has to be a number of no more than 20 digits and 30 places, and is {str(value)[:40]!r}.")
    return made


def word_of(value: Decimal, name: str) -> str:
    """The decimal without sign and exponent that the program reads."""
    if value < 0:
        raise ValueFault(f"{name} is {value}, and the program takes no negative numbers for it.")
    written = f"{value:f}"
    return (written.rstrip("0").rstrip(".") or "0") if "." in written else written


def whole_of(value: int, name: str) -> int:
    """``value`` where it is a whole number, and no truth value."""
    if isinstance(value, bool) or not isinstance(value, int):
        raise ValueFault(f"{name} has to be a whole number, and is {value!r}.")
    return value


@dataclass(frozen=True)
class Parameters:
    """The physical parameters of a run.

    ``eps``: relative permittivity. ``lam``: screening length in nm. ``depth``: -mu_minus in V. ``gap``: mu_minus -
    mu_plus in V. ``coulomb``: the Coulomb number in V·Å. ``base``: 3 charges a dot (-1, 0, +1), or 2 (-1, 0).
    Ranges are tested by the program alone.
    """

    eps: Decimal = Decimal("5.6")
    lam: Decimal = Decimal("5")
    depth: Decimal = Decimal("0.32")
    gap: Decimal = Decimal("0.59")
    coulomb: Decimal = Decimal("14.399645")
    base: int = 3

    def __post_init__(self) -> None:
        for name in DECIMAL_WORDS:
            object.__setattr__(self, name, decimal_of(getattr(self, name), name))
        whole_of(self.base, "base")

    def words(self) -> tuple[str, ...]:
        """The words of the program for these, without those that are as the program has them anyway."""
        return tuple(self._words())

    def _words(self) -> Iterator[str]:
        for name, word in DECIMAL_WORDS.items():
            value = getattr(self, name)
            if value != getattr(DEFAULTS, name):
                yield word
                yield word_of(value, name)
        if self.base != DEFAULTS.base:
            yield "--base"
            yield str(self.base)

    def with_(self, **changed: Number) -> Parameters:
        """The same with some changed: ``parameters.with_(eps="6", lam=5)``."""
        return replace(self, **changed)

    def as_row(self) -> dict[str, str]:
        """Each as a text, by its name."""
        row = {name: word_of(getattr(self, name), name) for name in DECIMAL_WORDS}
        return {**row, "base": str(self.base)}


#: The word of the program for each decimal.
DECIMAL_WORDS = {"eps": "--eps", "lam": "--lambda", "depth": "--depth", "gap": "--gap", "coulomb": "--coulomb"}

#: What the program takes where nothing is given.
DEFAULTS = Parameters()
