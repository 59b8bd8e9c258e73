"""What this package raises, and how it is read from what the program says on standard error."""

import os
import re
import signal
from typing import List, Optional, Sequence, Tuple

# A source's line is quoted in a message up to so many characters.
MOST_QUOTED = 120

# The faults whose line is one of a schedule's text: BadSchedule and TooManySteps.
OF_SCHEDULES = frozenset({52, 56})

# A file that cannot be read.
INPUT = 80

# The names of what a session of `elide debug` refuses, which answers a number alone.
REFUSALS = {
    70: "UnknownCommand",
    71: "BadArgument",
    72: "NoSuchCore",
    73: "OutOfRange",
    74: "LimitReached",
    75: "TooManyBreakpoints",
}

_FAULT = re.compile(r"fault (\d+) (\w+)(?: line (\d+))?")
_WARNING = re.compile(r"warning line (\d+): (.*)")
_USAGE = re.compile(r"usage: (.*)")
_OPTION = re.compile(r"'(--[a-z-]+)")


class Error(Exception):
    """What this package raises of its own; the classes below it say what it is."""


class Fault(Error):
    """A fault of the program's, by number and name; FAULTS.md and `elide explain` say what each
    means.

    `line` is the line of the text at fault, from 1, or None where the fault is of no line; `text`
    is what the program said, or the command that a session refused. `file` names the file at fault
    as far as it is known, `quoted` is its line `line`, and `warnings` are those of a source, by
    file and line, that the program told beside.
    """

    def __init__(
        self,
        number: int,
        name: str,
        line: Optional[int] = None,
        text: str = "",
        *,
        file: Optional[str] = None,
        quoted: Optional[str] = None,
        warnings: Sequence[str] = (),
    ) -> None:
        super().__init__(number, name, line, text)
        self.number = number
        self.name = name
        self.line = line
        self.text = text
        self.file = file
        self.quoted = quoted
        self.warnings: Tuple[str, ...] = tuple(warnings)

    def __str__(self) -> str:
        told = f"fault {self.number} {self.name}"
        if self.file is not None:
            place = self.file if self.line is None else f"{self.file}:{self.line}"
            told = f"{place}: {told}"
        elif self.line is not None:
            told = f"{told} line {self.line}"
        # What the program's own line says stands there already.
        further = self.quoted or ("" if self.text.startswith("fault ") else self.text)
        told = f"{told}: {further}" if further else told
        return printable("; ".join((told, *self.warnings)))


class Misuse(Error):
    """An option that the program does not take so. `option` is its name as `--mem`, or None where
    the program's text names none; `text` is that text."""

    def __init__(self, option: Optional[str], text: str = "") -> None:
        super().__init__(option, text)
        self.option = option
        self.text = text

    def __str__(self) -> str:
        text = self.text or f"usage: {self.option}"
        return "\n".join(printable(line) for line in text.split("\n"))


class ProgramEnded(Error):
    """The program ended before its answer was whole.

    `status` is its exit status, and where a signal ended it that signal's number below zero, as of
    `subprocess`; `text` is what it wrote up to then, standard error behind standard output.
    `command` is what it was asked.
    """

    def __init__(self, status: int, text: str = "", *, command: str = "") -> None:
        super().__init__(status, text)
        self.status = status
        self.text = text
        self.command = command

    def __str__(self) -> str:
        asked = self.command or "the program"
        told = printable(f"{asked}: {ending(self.status)} before the answer was whole")
        return f"{told}; it had written: {shortened(self.text)}" if self.text else told


class ProgramNotFound(Error):
    """There is no program to run; the text says which was looked for where."""


class BadAnswer(Error):
    """What the program wrote is no answer of elide's: another program, or one of another format.
    `command` is what it was asked, `text` what it wrote."""

    def __init__(self, command: str, text: str = "") -> None:
        super().__init__(command, text)
        self.command = command
        self.text = text

    def __str__(self) -> str:
        return f"{printable(self.command)}: no answer of elide's: {shortened(self.text)}"


class SourceWarning(UserWarning):
    """A warning of a source, told by file and line; the run goes on."""


def ending(status: int) -> str:
    """How a process ended, in words."""
    if status >= 0:
        return f"ended with status {status}"
    try:
        return f"was ended by {signal.Signals(-status).name}"
    except ValueError:
        return f"was ended by signal {-status}"


def shortened(text: str) -> str:
    """A text as a message shows it: one line, printable, and not too long."""
    shown = text.strip()
    shown = shown if len(shown) <= 400 else f"{shown[:200]} .. {shown[-200:]}"
    return printable(shown)


def printable(text: str) -> str:
    """A text without what would drive a terminal."""
    return "".join(c if c.isprintable() else ascii(c)[1:-1] for c in text)


def quoted_line(path: str, line: int) -> Optional[str]:
    """A line of a file, as a message shows it, or None where there is none."""
    # What is no file, as a pipe, has been read already.
    if not os.path.isfile(path):
        return None
    try:
        with open(path, encoding="utf-8", errors="replace", newline="\n") as file:
            for number, text in enumerate(file, 1):
                if number == line:
                    return printable(text.strip()[:MOST_QUOTED])
    except OSError:
        pass
    return None


def error_of(status: int, text: str, command: str, words: Sequence[str]) -> Error:
    """What a program that ended with this status told on standard error, whose lines are these."""
    if status == 1:
        for word in words:
            found = _FAULT.fullmatch(word)
            if found:
                line = int(found[3]) if found[3] else None
                return Fault(int(found[1]), found[2], line, word)
    if status == 2:
        for word in words:
            found = _USAGE.fullmatch(word)
            if found:
                return Misuse(found[1], word)
        said = "\n".join(words)
        named = _OPTION.search(said)
        return Misuse(named[1] if named else None, said)
    return ProgramEnded(status, text, command=command)


def warnings_of(words: Sequence[str], name: str) -> List[str]:
    """The warnings of a source among the lines of standard error, with its name."""
    found = (_WARNING.fullmatch(word) for word in words)
    return [printable(f"{name}:{it[1]}: {it[2]}") for it in found if it]


def others_of(words: Sequence[str]) -> List[str]:
    """The lines of standard error that are neither a fault nor a warning."""
    return [it for it in words if it and not _FAULT.fullmatch(it) and not _WARNING.fullmatch(it)]
