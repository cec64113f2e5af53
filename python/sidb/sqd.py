"""Reads a file that SiQAD saved, and refuses one that a layout cannot hold.

The program itself reads the dots of such a file alone, as dots on H-Si(100)-2x1, so that a file with another lattice,
charged defects or other parameters would get a certain answer to another layout than the one that was drawn. This
reader takes all of these, and refuses or names what it cannot take.
"""

from __future__ import annotations

import re
from collections import Counter
from collections.abc import Collection, Iterator
from decimal import Decimal
from xml.etree.ElementTree import Element, TreeBuilder
from xml.parsers import expat

from .errors import FileFault
from .layout import MOST_BYTES, SILICON, Fixed, Lattice, Layout, Place
from .parameters import Parameters

#: What ``leave_out`` may name.
CAN_LEAVE_OUT = ("electrodes", "screening", "physloc")
_DEEPEST = 100
_WHOLE = re.compile(r"-?[0-9]{1,9}")
_DECIMAL = re.compile(r"[-+]?[0-9]{1,15}(\.[0-9]{0,15})?([eE][-+]?[0-9]{1,2})?")
_PARAMETERS = {"muzm": "depth", "eps_r": "eps", "debye_length": "lam"}


def layout_of_sqd(given: bytes | str, name: str = "", leave_out: Collection[str] = ()) -> Layout:
    """The layout of the bytes of a file of SiQAD; a FileFault where it cannot hold what the file has."""
    unknown = sorted(set(leave_out) - set(CAN_LEAVE_OUT))
    if isinstance(leave_out, str) or unknown:
        raise FileFault(f"What can be left out is {', '.join(CAN_LEAVE_OUT)}, in a list; and not {leave_out!r}.")
    data = given.encode() if isinstance(given, str) else given
    return _File(_tree_of(data, name or "SiQAD file"), name or "SiQAD file", frozenset(leave_out)).layout()


class _Reader:
    """Builds the tree of a text, without entities, and not deeper than a file of SiQAD is."""

    def __init__(self, name: str) -> None:
        self.name = name
        self.depth = 0
        self.builder = TreeBuilder()
        self.parser = expat.ParserCreate()
        self.parser.StartElementHandler = self.start
        self.parser.EndElementHandler = self.end
        self.parser.CharacterDataHandler = self.builder.data
        self.parser.StartDoctypeDeclHandler = self.refuse
        self.parser.EntityDeclHandler = self.refuse

    def start(self, tag: str, attributes: dict[str, str]) -> None:
        self.depth += 1
        if self.depth > _DEEPEST:
            raise FileFault(f"{self.name}: its elements are nested more than {_DEEPEST} deep.")
        self.builder.start(tag, attributes)

    def end(self, tag: str) -> None:
        self.depth -= 1
        self.builder.end(tag)

    def refuse(self, *_: object) -> None:
        raise FileFault(f"{self.name} has a document type or entities, which no file of SiQAD has. It is not read.")


def _tree_of(data: bytes, name: str) -> Element:
    if len(data) > MOST_BYTES:
        raise FileFault(f"{name} has more than {MOST_BYTES} bytes, the most that the program reads.")
    reader = _Reader(name)
    try:
        reader.parser.Parse(data, True)
    except expat.ExpatError as fault:
        what = expat.ErrorString(fault.code)
        raise FileFault(f"{name} is no XML text: {what}, line {fault.lineno}, column {fault.offset}.") from None
    except (LookupError, ValueError) as fault:
        raise FileFault(f"{name} is no XML text: {fault}.") from None
    root = reader.builder.close()
    if root.tag != "siqad":
        raise FileFault(f"{name} is no file of SiQAD: its root element is {_short(root.tag)}, and not siqad.")
    return root


def _short(text: str) -> str:
    return repr(text if len(text) <= 40 else text[:37] + "...")


class _File:
    """What a file has that counts."""

    def __init__(self, root: Element, name: str, leave_out: frozenset[str]) -> None:
        self.root = root
        self.name = name
        self.leave_out = leave_out
        self.left_out: list[str] = []
        self.lattice, self.atoms = self._lattice()
        self.parameters = self._parameters()

    def layout(self) -> Layout:
        sites = tuple(self._dot(dot, number) for number, dot in enumerate(self.root.iter("dbdot")))
        fixed = tuple(self._defects())
        self._electrodes()
        self._others()
        return Layout(sites, fixed, self.lattice, self.name, self.parameters, tuple(self.left_out))

    def fault(self, words: str) -> FileFault:
        return FileFault(f"{self.name}: {words}")

    # numbers

    def whole(self, found: Element, attribute: str, where: str) -> int:
        text = found.get(attribute, "")
        if not _WHOLE.fullmatch(text):
            raise self.fault(f"{where} has {attribute}={_short(text)} where a whole number has to be.")
        return int(text)

    def decimal(self, text: str | None, where: str) -> Decimal:
        stripped = (text or "").strip()
        if not _DECIMAL.fullmatch(stripped):
            raise self.fault(f"{where} is {_short(stripped)}, and has to be a number.")
        return Decimal(stripped)

    # the lattice

    def _lattice(self) -> tuple[Lattice, int]:
        found = {self._vectors(vectors) for vectors in self.root.iter("lat_vec")}
        if len(found) > 1:
            raise self.fault("it has two lattices with different vectors, and a layout has one.")
        return found.pop() if found else (SILICON, 2)

    def _vectors(self, vectors: Element) -> tuple[Lattice, int]:
        atoms = int(self.decimal(vectors.findtext("N"), "N of the lattice"))
        if atoms not in (1, 2):
            raise self.fault(f"its lattice has {atoms} atoms in a cell, and a layout takes 1 or 2.")
        a, b = self._vector(vectors, "a1"), self._vector(vectors, "a2")
        if atoms == 1:
            return Lattice(*a, *b, 0, 0), 1
        first, second = self._vector(vectors, "b1"), self._vector(vectors, "b2")
        return Lattice(*a, *b, second[0] - first[0], second[1] - first[1]), 2

    def _vector(self, vectors: Element, tag: str) -> tuple[int, int]:
        found = vectors.find(tag)
        if found is None:
            raise self.fault(f"its lattice has no vector {tag}.")
        ends = [self.decimal(found.get(axis), f"{axis} of the vector {tag}") * 100 for axis in "xy"]
        if any(end != end.to_integral_value() for end in ends):
            raise self.fault(f"the vector {tag} of its lattice is no whole number of 0.01 Å, so that it would be rounded.")
        return int(ends[0]), int(ends[1])

    # dots and defects

    def place(self, found: Element, where: str) -> Place:
        place = Place(*(self.whole(found, axis, where) for axis in "nml"))
        if place.l >= self.atoms:
            raise self.fault(f"{where} has l={place.l}, and a cell of the lattice has {self.atoms} atoms.")
        return place

    def _dot(self, dot: Element, number: int) -> Place:
        where = f"dot {number} of the file"
        places = list(dot.iter("latcoord"))
        if len(places) != 1 or dot.find(".//dbdot") is not None:
            raise self.fault(f"{where} has {len(places)} places or a dot inside, and has to have one place.")
        place = self.place(places[0], where)
        drawn = dot.find("physloc")
        if drawn is not None and "physloc" not in self.leave_out:
            self._agrees(drawn, place, where)
        return place

    def _agrees(self, drawn: Element, place: Place, where: str) -> None:
        """The position in Å that SiQAD wrote beside the place is that of the place; it wrote six digits of it."""
        for axis, due in zip("xy", self.lattice.position(place)):
            said = self.decimal(drawn.get(axis), f"physloc {axis} of {where}")
            if abs(said - Decimal(due) / 100) > Decimal("0.01") + abs(said) / 100_000:
                raise self.fault(
                    f"{where} is drawn at {axis} = {said} Å, and its place {tuple(place)} lies at {Decimal(due) / 100} Å "
                    "on the file's lattice. Where the places are right, leave_out=['physloc'] says so."
                )

    def _defects(self) -> Iterator[Fixed]:
        for number, defect in enumerate(self.root.iter("defect")):
            where = f"defect {number} of the file"
            charge = self._charge(defect, where)
            places = [self.place(found, where) for found in defect.iter("latcoord")]
            if charge == 0:
                at = ", ".join(str(tuple(place)) for place in places) or "no place"
                self.left_out.append(f"The neutral defect at {at} counts for nothing.")
            elif len(set(places)) != 1:
                raise self.fault(f"{where} is charged and has {len(set(places))} places, and a fixed charge has one.")
            else:
                yield Fixed(*places[0], charge)

    def _charge(self, defect: Element, where: str) -> int:
        coulomb = defect.find(".//coulomb")
        if coulomb is None:
            return 0
        charge = self.decimal(coulomb.get("charge"), f"the charge of {where}")
        if charge != charge.to_integral_value():
            raise self.fault(f"the charge of {where} is {charge}, and has to be a whole number.")
        if charge != 0:
            self._screening(coulomb, where)
        return int(charge)

    def _screening(self, coulomb: Element, where: str) -> None:
        """A fixed charge is screened like all else; a defect that has numbers of its own is refused."""
        due = {"eps_r": self.parameters.eps, "lambda_tf": self.parameters.lam, "lambda_d": self.parameters.lam}
        for name, value in due.items():
            if coulomb.get(name) is None or self.decimal(coulomb.get(name), f"{name} of {where}") == value:
                continue
            said = f"{where} has {name}={_short(coulomb.get(name, ''))} of its own, and the layout {value}"
            if "screening" not in self.leave_out:
                raise self.fault(f"{said}: one number counts for all. leave_out=['screening'] takes the layout's.")
            self.left_out.append(f"{said[0].upper()}{said[1:]}, which is taken.")

    # parameters and the rest

    def _parameters(self) -> Parameters:
        found: dict[str, Decimal] = {}
        for one in (one for settings in self.root.iter("sim_params") for one in settings):
            name = _PARAMETERS.get(one.tag)
            if name is None:
                self.left_out.append(f"The setting {_short(one.tag)} of a simulation counts for nothing.")
                continue
            value = self.decimal(one.text, f"{one.tag} of the simulation")
            value = -value if name == "depth" else value
            if found.setdefault(name, value) != value:
                raise self.fault(f"it has two simulations with different {one.tag}.")
        if found.get("depth", Decimal(0)) < 0:
            raise self.fault("its muzm is above 0 V, and the program takes mu_minus from -2 V to 0.")
        return Parameters(**found)  # type: ignore[arg-type]

    def _electrodes(self) -> None:
        count = sum(1 for _ in self.root.iter("electrode"))
        if count and "electrodes" not in self.leave_out:
            raise self.fault(
                f"it has {count} electrodes, and the model has none, so that the answer would be to another design. "
                "leave_out=['electrodes'] (--leave-out electrodes) leaves them out."
            )
        if count:
            self.left_out.append(f"{count} electrodes are left out.")

    def _others(self) -> None:
        """Names the items of design layers that are none of all this."""
        known = ("dbdot", "defect", "electrode")
        items = (item for layer in self.root.findall("design/layer") for item in layer)
        others = Counter(item.tag for item in items if all(next(item.iter(tag), None) is None for tag in known))
        self.left_out += [f"{count} items {_short(tag)} count for nothing." for tag, count in others.items()]
