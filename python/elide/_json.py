"""The objects that the program's commands print with `--json` (JSON.md), as records. An object of
another form is a ValueError."""

import json
from typing import Any, Callable, Dict, List, Optional, Tuple, Type, TypeVar

from . import records
from ._lines import REGISTERS

T = TypeVar("T")

# Puts a program's name in the place of its file's path.
Named = Callable[[str], str]

# The number of the format that is read.
FORMAT = 1


class Fields:
    """The fields of an object, of the types that are asked for."""

    def __init__(self, value: Any) -> None:
        if not isinstance(value, dict):
            raise ValueError(f"no object: {value!r:.60}")
        self._fields: Dict[str, Any] = value

    def has(self, name: str) -> bool:
        """Whether there is such a field that is not null."""
        return self._fields.get(name) is not None

    def number(self, name: str) -> int:
        """A number."""
        return self._get(name, int)

    def text(self, name: str) -> str:
        """A text."""
        return self._get(name, str)

    def truth(self, name: str) -> bool:
        """True or false."""
        return self._get(name, bool)

    def inner(self, name: str) -> "Fields":
        """An object."""
        return Fields(self._get(name, dict))

    def inners(self, name: str) -> List["Fields"]:
        """A list of objects."""
        return [Fields(it) for it in self._get(name, list)]

    def texts(self, name: str) -> Tuple[str, ...]:
        """A list of texts."""
        return tuple(Fields({name: it}).text(name) for it in self._get(name, list))

    def numbers(self, name: str) -> Tuple[int, ...]:
        """A list of numbers."""
        return tuple(Fields({name: it}).number(name) for it in self._get(name, list))

    def maybe_text(self, name: str) -> Optional[str]:
        """A text, or None where there is no such field."""
        return self.text(name) if self.has(name) else None

    def maybe_number(self, name: str) -> Optional[int]:
        """A number, or None where there is no such field."""
        return self.number(name) if self.has(name) else None

    def _get(self, name: str, kind: Type[T]) -> T:
        value = self._fields.get(name)
        # Not isinstance: True is an int of Python's.
        if type(value) is not kind:
            raise ValueError(f"{name}: {value!r:.60}")
        found: T = value
        return found


def is_whole(text: str, status: int) -> bool:
    """Whether a command that ended with this status printed a whole object."""
    return text.endswith(f'"status":{status}}}\n')


def object_of(text: str, command: str, status: int) -> Fields:
    """The object that a command printed, which ended with this status."""
    found = Fields(json.loads(text))
    if found.number("format") != FORMAT:
        raise ValueError(f"format {found.number('format')} in place of {FORMAT}")
    if found.text("command") != command or found.number("status") != status:
        raise ValueError("of another command, or of another status")
    return found


def failure(found: Fields, named: Named) -> Optional[records.Failure]:
    """The object of `hunt`."""
    if not found.has("failure"):
        return None
    told, runs = found.inner("failure"), found.inner("runs")
    check = told.inner("check")
    return records.Failure(
        run=told.number("run"),
        option=check.text("option"),
        check=check.maybe_text("text"),
        before=_length(told.inner("before")),
        after=_length(told.inner("after")),
        deciding=told.number("deciding"),
        schedule=told.texts("schedule"),
        replay=named(told.text("replay")),
        ended=runs.number("ended"),
        cut=runs.number("cut"),
    )


def outcomes(found: Fields) -> records.Outcomes:
    """The object of `outcomes`."""
    return records.Outcomes(
        show=found.texts("show"),
        outcomes=tuple(
            records.Outcome(it.numbers("values"), it.number("ends"), it.texts("schedule"))
            for it in found.inners("outcomes")
        ),
        violations=tuple(
            records.Violation(it.text("option"), it.maybe_text("text"), it.texts("schedule"))
            for it in found.inners("violations")
        ),
        stops=tuple(
            records.Stop(it.text("cause"), it.texts("schedule")) for it in found.inners("stops")
        ),
        stuck=_stuck(found),
        states=found.number("states"),
        whole=found.truth("whole"),
    )


def _stuck(found: Fields) -> Optional[records.Stuck]:
    if not found.has("stuck"):
        return None
    told = found.inner("stuck")
    return records.Stuck(told.number("states"), told.texts("schedule"))


def run(found: Fields) -> records.Run:
    """The object of `run`."""
    return records.Run(
        cores=_cores(found),
        dump=_dump(found),
        show=_show(found),
        outcomes=_steps(found),
        running=found.numbers("running") if found.has("running") else None,
    )


def replay(found: Fields) -> records.Replay:
    """The object of `replay`."""
    return records.Replay(_cores(found), _dump(found), _show(found), found.truth("agree"))


def threads(found: Fields) -> records.State:
    """The object of `threads`."""
    return records.State(_cores(found), _dump(found), _show(found))


def _steps(found: Fields) -> Optional[Tuple[records.Step, ...]]:
    if not found.has("outcomes"):
        return None
    return tuple(_step(it) for it in found.inners("outcomes"))


def _step(found: Fields) -> records.Step:
    return records.Step(
        number=found.number("step"),
        core=found.number("core"),
        outcome=found.text("outcome"),
        cause=found.maybe_text("stop"),
        status=found.maybe_number("status"),
        event=found.maybe_text("event"),
    )


def _cores(found: Fields) -> Tuple[records.Registers, ...]:
    return tuple(_core(it) for it in found.inners("cores"))


def _core(found: Fields) -> records.Registers:
    state, stop = found.text("state"), found.maybe_text("stop")
    eax, ecx, edx, ebx, esp, ebp, esi, edi, eip = (found.number(it) for it in REGISTERS)
    return records.Registers(
        found.number("core"),
        state if stop is None else f"{state}:{stop}",
        found.number("depth"),
        eax,
        ecx,
        edx,
        ebx,
        esp,
        ebp,
        esi,
        edi,
        eip,
        found.texts("flags"),
    )


def _dump(found: Fields) -> Tuple[records.Dump, ...]:
    return tuple(
        records.Dump(it.number("address"), bytes.fromhex(it.text("bytes")))
        for it in found.inners("dump")
    )


def _show(found: Fields) -> Tuple[records.Shown, ...]:
    return tuple(
        records.Shown(it.text("at"), it.number("address"), it.number("value"))
        for it in found.inners("show")
    )


def _length(found: Fields) -> records.Length:
    return records.Length(found.number("steps"), found.number("switches"), found.number("events"))
