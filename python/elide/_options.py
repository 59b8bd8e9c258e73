"""The options of the program's commands, of the parameters that the calls of this package have."""

import os
import tempfile
from types import TracebackType
from typing import Iterable, List, Optional, Sequence, Tuple, Type, Union

from ._path import PathLike
from .errors import Misuse

# An address: a number, or a text that the program reads, as a symbol or a sum.
Address = Union[int, str]

# A schedule: core numbers, and words as `1i`; or a text of these with spaces between.
Steps = Union[str, Iterable[Union[int, str]]]

# Schedules whose text is longer go by a file: all arguments together have at most 262,144 bytes.
MOST_STEPS_TEXT = 32768


def option(name: str, value: Union[None, int, str, PathLike]) -> List[str]:
    """An option with its value, or nothing. They are one word, since a value may begin with `-`."""
    if value is None:
        return []
    return [f"--{name}={value if isinstance(value, int) else os.fspath(value)}"]


def several(name: str, values: Union[None, str, Sequence[str]]) -> List[str]:
    """An option for each value."""
    if values is None:
        return []
    if isinstance(values, str):
        values = (values,)
    return [f"--{name}={value}" for value in values]


def flag(name: str, is_set: bool) -> List[str]:
    """An option without a value."""
    return [f"--{name}"] if is_set else []


def machine(
    cores: int,
    memory: Optional[int],
    entry: Union[None, Address, Sequence[Address]],
    reads: Optional[int],
    writes: Optional[int],
    store_buffer: Optional[int] = None,
) -> List[str]:
    """The options of the machine."""
    if entry is not None and not isinstance(entry, (int, str)):
        entry = ",".join(str(it) for it in entry)
    return [
        *option("cores", cores),
        *option("mem", memory),
        *option("entry", entry),
        *option("reads", reads),
        *option("writes", writes),
        *option("store-buffer", store_buffer),
    ]


class Schedule:
    """The options of a schedule. One that is long goes by a file, which is there while this is
    open."""

    def __init__(
        self,
        *,
        steps: Optional[Steps] = None,
        schedule: Optional[PathLike] = None,
        in_turn: bool = False,
        random: Optional[int] = None,
        limit: Optional[int] = None,
        events: Union[None, int, str] = None,
        seed: Optional[int] = None,
    ) -> None:
        self.picks: Optional[Tuple[str, ...]] = None
        # What a fault of a schedule's text is told of.
        self.name: Optional[str] = None if schedule is None else os.fspath(schedule)
        self._file: Optional[str] = None
        self._words = [
            *option("schedule", schedule),
            *flag("in-turn", in_turn),
            *option("random", random),
            *option("limit", limit),
            *option("events", events),
            *option("seed", seed),
        ]
        if steps is not None:
            text = steps if isinstance(steps, str) else " ".join(str(it) for it in steps)
            self.picks = tuple(text.split())
        self.is_given = self.picks is not None or bool(self._words)

    def __enter__(self) -> List[str]:
        if self.picks is None:
            return self._words
        text = " ".join(self.picks)
        if len(text) <= MOST_STEPS_TEXT:
            return [*option("steps", text), *self._words]
        # A file's words may stand for several steps, and those of `--steps` may not.
        if "*" in text:
            raise Misuse("--steps", "usage: --steps")
        handle, self._file = tempfile.mkstemp(prefix="elide-", suffix=".schedule")
        try:
            self._write(handle, self.picks)
        except BaseException:
            self._remove()
            raise
        self.name = "steps"
        return [*option("schedule", self._file), *self._words]

    def __exit__(
        self,
        kind: Optional[Type[BaseException]],
        error: Optional[BaseException],
        trace: Optional[TracebackType],
    ) -> None:
        self._remove()

    def _write(self, handle: int, picks: Sequence[str]) -> None:
        with open(handle, "w", encoding="utf-8", errors="surrogateescape") as file:
            file.write("schedule 3\n")
            # A line has 16 words, as the program writes them.
            for at in range(0, len(picks), 16):
                file.write(" ".join(picks[at : at + 16]) + "\n")

    def _remove(self) -> None:
        if self._file is not None:
            os.unlink(self._file)
            self._file = None
