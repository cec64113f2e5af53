"""Faults: one exception for each way in which an answer does not come.

Each says in words what went wrong, where, and what to do. Where the program spoke, ``line`` is the line that it
printed and ``status`` its exit status.
"""

from __future__ import annotations

import re
from collections.abc import Callable


class SidbError(Exception):
    """What all faults of this package are.

    ``str()`` of it is one or more sentences for a reader; ``line`` is the program's own line ("" where it printed
    none); ``status`` its exit status (None where it gave none).
    """

    def __init__(self, words: str, line: str = "", status: int | None = None) -> None:
        super().__init__(words, line, status)
        self.words = words
        self.line = line
        self.status = status

    def __str__(self) -> str:
        return self.words


class ValueFault(SidbError, ValueError):
    """A value cannot be written as words of the program, or as a layout: a wrong type, or a number with too many
    places."""


class FileFault(SidbError):
    """A file is refused before the program sees it, because an answer to it would be an answer to something else."""


class ProgramMissing(SidbError):
    """There is no built program where this package looks for one."""


class ProgramTimeout(SidbError):
    """The program did not answer within the time that was given; it was ended."""


class BadAnswer(SidbError):
    """What the program printed is no answer that this package knows, or it was ended by a signal."""


class WordsFault(SidbError):
    """Status 2: the program refuses its words."""


class InputFault(SidbError):
    """Status 3: the program names the first fault of its input."""


class CertificateFault(SidbError):
    """Status 4: the certificate is not sound."""


class BudgetFault(SidbError):
    """Status 5: the search tree has more nodes than the limit."""


class ListTooLong(SidbError):
    """Status 6: more than 4,096 charge lists are entries."""


class ReadFailed(SidbError):
    """Status 7: the program could not read its input."""


class WriteFailed(SidbError):
    """Status 8: the program could not write its answer."""


class NoMemory(SidbError):
    """Status 9: memory did not suffice."""


class NoWords(SidbError):
    """Status 10: the system did not give the program its words."""


class NotBuilt(SidbError):
    """Status 1: the script ``sidb`` could not build the program."""


#: The exception of each exit status.
BY_STATUS: dict[int, type[SidbError]] = {
    1: NotBuilt,
    2: WordsFault,
    3: InputFault,
    4: CertificateFault,
    5: BudgetFault,
    6: ListTooLong,
    7: ReadFailed,
    8: WriteFailed,
    9: NoMemory,
    10: NoWords,
}

_WORDS_OF_STATUS = {
    1: "The program could not be built. Run ./build at the top of the checkout and read what it says.",
    5: (
        "The search tree has more nodes than the limit. Give a greater limit (up to 10000000), try easiest(), "
        "which looks at the layout's mirror images, leave dots out, or take base 2 where no dot can be positive."
    ),
    6: "More than 4,096 charge lists are entries. Take a smaller window, or fewer dots that do not interact.",
    7: "The program could not read its input.",
    8: "The program could not write its answer.",
    9: "The machine had not enough memory for the answer.",
    10: "The system did not give the program its words. Try again when the machine has memory free.",
}

#: What each fault of an input means: a pattern of the text behind ``fault input ``, and the words for it.
_INPUT_WORDS: tuple[tuple[str, str], ...] = (
    (r"too-long", "The input has more bytes than the program reads (1 MiB; 256 MiB for a certificate)."),
    (r"bad-line (\d+)", "Line {0} of the sites text is no site, fixed charge, lattice or comment, or a second lattice."),
    (r"out-of-range (\d+)", "A number at {0} is out of its range (a line of a sites text, a byte of a SiQAD file)."),
    (r"too-many", "There are more than 64 dots. Leave some out."),
    (r"too-many-fixes", "There are more than 8 fixed charges. Leave some out."),
    (r"duplicate (\d+) (\d+)", "The places at {0} and {1} are the same (lines of a sites text, bytes of a SiQAD file)."),
    (r"too-close (\d+) (\d+)", "The places on lines {0} and {1} are less than 2.25 Å apart on this lattice."),
    (r"gate-site (\d+)", "The gate names site {0}, which the layout does not have. Sites are counted from 0, in row order."),
    (r"doctype (\d+)", "The file has a <!DOCTYPE at byte {0}, which is refused. Save it from SiQAD again."),
    (r"cdata (\d+)", "The file has a <![CDATA[ at byte {0}, which is refused. Save it from SiQAD again."),
    (r"wrong-close (\d+)", "The end mark at byte {0} has another name than the element that is open there."),
    (r"not-closed (\d+)", "The file ends inside what begins at byte {0}. It was cut short."),
    (r"bad-mark (\d+)", "The byte at {0} may not stand there in a SiQAD file."),
    (r"not-siqad", "The file's root element is not named siqad, so it is no file of SiQAD."),
    (r"bad-site (\d+)", "The dot at byte {0} has not exactly one whole-numbered place."),
    (r"table line (\d+) form", "Line {0} of the table is no line that may stand there."),
    (r"table line (\d+) range", "A number on line {0} of the table is out of its range."),
    (r"table (.+)", "The table of potentials has a fault: {0}."),
    (r"certificate line (\d+) form", "Line {0} of the certificate is no line that may stand there."),
    (r"certificate line (\d+) range", "A number on line {0} of the certificate is out of its range."),
)


def _input_words(line: str) -> str:
    said = line.removeprefix("fault input ")
    for pattern, words in _INPUT_WORDS:
        found = re.fullmatch(pattern, said)
        if found:
            return words.format(*found.groups())
    return f"The input has a fault: {said}."


def _words_fault(_line: str) -> str:
    return (
        "The program refuses its words: a value is out of its range, or the task lacks an option. "
        "Ranges are in docs/FORMATS.md, \"Words\"."
    )


def _certificate_words(line: str) -> str:
    return f"The certificate is not sound; the first test that fails is: {line.removeprefix('fault certificate ')}."


_SPEAKERS: dict[int, Callable[[str], str]] = {2: _words_fault, 3: _input_words, 4: _certificate_words}


def fault_of(status: int, line: str, words: tuple[str, ...], where: str) -> SidbError:
    """The exception for an exit status other than 0.

    ``line`` is what the program printed, ``words`` the words that it was given, ``where`` what it was asked about
    (a name of a layout).
    """
    made = BY_STATUS.get(status)
    if made is None:
        return BadAnswer(f"The program ended with status {status}, which means nothing to this package.", line, status)
    speaker = _SPEAKERS.get(status)
    said = speaker(line) if speaker else _WORDS_OF_STATUS[status]
    of = f"{where}: " if where else ""
    told = f" The program said: {line}" if line else ""
    asked = f" (asked with {' '.join(words)})" if words else ""
    return made(of + said + told + asked, line, status)
