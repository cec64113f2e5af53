"""Finds the built program, and runs it once for one answer."""

from __future__ import annotations

import functools
import hashlib
import os
import shutil
import subprocess
import time
from dataclasses import dataclass
from pathlib import Path
from typing import NamedTuple

from .errors import BadAnswer, ProgramMissing, ProgramTimeout, fault_of

#: Where the program lies in the checkout that this package is part of.
IN_CHECKOUT = Path(__file__).resolve().parents[2] / "crates" / "sidb" / "out" / "sidb"


class Version(NamedTuple):
    """Which program gave an answer: its path, the SHA-256 of its file, and the first line of its text, which names
    the form and the form's number ("sidb-ground 2")."""

    path: str
    sha256: str
    form: str


class Output(NamedTuple):
    """What one run of the program gave: standard output, and the seconds that the process took."""

    text: str
    seconds: float


@dataclass(frozen=True)
class Program:
    """A built program."""

    path: str

    def sha256(self) -> str:
        """The checksum of its file, in hexadecimal digits."""
        found = os.stat(self.path)
        return _checksum(self.path, found.st_mtime_ns, found.st_size)

    def run(self, words: tuple[str, ...], given: str | bytes, timeout: float | None = None, where: str = "") -> Output:
        """Runs it with these words on these bytes, for at most ``timeout`` seconds.

        A status other than 0 is the exception for that status; ``where`` names in it what was asked about.
        """
        begun = time.perf_counter()
        try:
            done = subprocess.run(
                [self.path, *words],
                input=given.encode() if isinstance(given, str) else given,
                capture_output=True,
                timeout=timeout,
                check=False,
            )
        except subprocess.TimeoutExpired:
            raise ProgramTimeout(
                f"{where or 'The program'}: no answer within {timeout} s. Give more time, or a smaller limit of nodes."
            ) from None
        except OSError as fault:
            raise ProgramMissing(f"{self.path} cannot be run: {fault.strerror}.") from fault
        text = _text_of(done.stdout)
        if done.returncode < 0:
            raise BadAnswer(f"The program was ended by signal {-done.returncode}.", text.strip(), done.returncode)
        if done.returncode != 0:
            raise fault_of(done.returncode, text.strip(), words, where)
        return Output(text, time.perf_counter() - begun)


def _text_of(given: bytes) -> str:
    try:
        return given.decode("ascii")
    except UnicodeDecodeError as fault:
        raise BadAnswer(f"What the program printed is no text: byte {fault.start}.") from fault


@functools.lru_cache(maxsize=64)
def _checksum(path: str, _changed: int, _size: int) -> str:
    with open(path, "rb") as file:
        return hashlib.file_digest(file, "sha256").hexdigest()


def find_program(given: str | Path | Program | None = None) -> Program:
    """The program: what is given; else the path in the environment's ``SIDB``; else ``sidb`` on the ``PATH``; else
    the one that the checkout built."""
    if isinstance(given, Program):
        return given
    if given is not None:
        return _checked(str(given), "the argument program")
    if os.environ.get("SIDB"):
        return _checked(os.environ["SIDB"], "SIDB of the environment")
    found = shutil.which("sidb") or (str(IN_CHECKOUT) if IN_CHECKOUT.exists() else None)
    if found is None:
        raise ProgramMissing(
            "There is no built program. Run ./build at the top of the checkout, or give its path: by program=, or by "
            f"SIDB in the environment. Looked on the PATH, and at {IN_CHECKOUT}."
        )
    return _checked(found, "where it was found")


def _checked(path: str, origin: str) -> Program:
    whole = path if os.path.sep in path else shutil.which(path) or path
    if not (os.path.isfile(whole) and os.access(whole, os.X_OK)):
        raise ProgramMissing(f"There is no program that can be run at {path} ({origin}).")
    return Program(os.path.abspath(whole))
