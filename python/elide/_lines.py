"""The lines that a session of `elide debug` answers with, as records (FORMATS.md, "Debugger" and
"Printed lines"). A line of another form is a ValueError."""

import re
from functools import lru_cache
from typing import Callable, List, NoReturn, Optional, Pattern, Sequence, Tuple

from .records import Pending, Reason, Registers, Sets, Step

# The registers of a state line, in its order.
REGISTERS = ("eax", "ecx", "edx", "ebx", "esp", "ebp", "esi", "edi", "eip")

# The flags of a state line, with their places in its sum.
FLAGS = (("CF", 0x001), ("PF", 0x004), ("AF", 0x010), ("ZF", 0x040), ("SF", 0x080), ("OF", 0x800))

_STATE = re.compile(
    r"core (\d+) (\S+) "
    + " ".join(f"{name}=([0-9a-f]{{8}})" for name in REGISTERS)
    + r" flags=([0-9a-f]{3})"
)
_OUTCOME = re.compile(
    r"(\d+) (?:(plain|loaded|idle|begun|inside|committed|drained)|(stopped) (\S+)"
    r"|(aborted) ([0-9a-f]{8})(?: (interrupt|eviction|snoop))?)"
)
_SETS = re.compile(r"sets (\d+) (\S+) reads (-|[0-9a-f ]+) writes (-|[0-9a-f ]+)")
_WHY = re.compile(r"core (\d+): (.+)")
_PENDING = re.compile(r"pending (\d+) (?:(-)|([0-9a-f]{8}) ([0-9a-f]{8}|[0-9a-f]{2}))")
_HIT = re.compile(
    r" line ([0-9a-f]+): (read|written|drained) at step (\d+) by core (\d+)(?: at ([0-9a-f]{8}))?"
    r"(?:, stored at step (\d+))?"
)
_BEGUN = re.compile(r"; begun at step (\d+)")
_DUMP = re.compile(r"([0-9a-f]{8}) ((?:[0-9a-f]{2})+)")
_BREAK = re.compile(r"break (\d+) ([0-9a-f]{8})")
_MADE = re.compile(r"at step (\d+)")
_ERROR = re.compile(r"error (\d+)")


def refusal(row: Sequence[str]) -> Optional[int]:
    """The number of the refusal that an answer is, if it is one."""
    found = _ERROR.fullmatch(row[0]) if len(row) == 1 else None
    return int(found[1]) if found else None


def registers(row: Sequence[str]) -> Registers:
    """The state line of a core."""
    core, word, *values, places = _fields(_STATE, _one(row))
    state, depth = state_of(word)
    eax, ecx, edx, ebx, esp, ebp, esi, edi, eip = (int(it, 16) for it in values)
    flags = tuple(name for name, place in FLAGS if int(places, 16) & place)
    return Registers(int(core), state, depth, eax, ecx, edx, ebx, esp, ebp, esi, edi, eip, flags)


def state_of(word: str) -> Tuple[str, Optional[int]]:
    """The state that the third word of a state line says, and the depth, which it has of an open
    transaction alone."""
    if word.startswith("tx"):
        return "tx", int(word[2:])
    return word, None if word == "condemned" else 0


def step(line: str, number: int) -> Step:
    """The outcome line of the step of this number."""
    return Step(number, *_outcome(line))


# Few lines are different ones.
@lru_cache(maxsize=1024)
def _outcome(line: str) -> Tuple[int, str, Optional[str], Optional[int], Optional[str]]:
    core, plain, stopped, cause, aborted, status, event = _fields(_OUTCOME, line)
    outcome = plain or stopped or aborted
    return int(core), outcome, cause or None, int(status, 16) if status else None, event or None


def sets(row: Sequence[str]) -> Sets:
    """The lines that a core has read and written."""
    core, word, reads, writes = _fields(_SETS, _one(row))
    state, depth = state_of(word)
    return Sets(int(core), state, depth, _numbers(reads), _numbers(writes))


def pending(row: Sequence[str]) -> Tuple[Pending, ...]:
    """The stores of a core that are pending, the oldest first."""
    stores = []
    for line in row:
        core, none, address, value = _fields(_PENDING, line)
        if not none:
            stores.append(Pending(int(core), int(address, 16), int(value, 16), len(value) // 2))
    return tuple(stores)


def reason(row: Sequence[str]) -> Optional[Reason]:
    """Why the next step of a core is an abort, or None where it is none."""
    core, text = _fields(_WHY, _one(row))
    if text == "its next step is no abort":
        return None
    hit, begun = _HIT.search(text), _BEGUN.search(text)
    ends = [it.start() for it in (hit, begun) if it]
    return Reason(
        int(core),
        text,
        text[: min(ends, default=len(text))],
        int(hit[1], 16) if hit else None,
        hit[2] if hit else None,
        int(hit[3]) if hit else None,
        int(hit[4]) if hit else None,
        int(hit[5], 16) if hit and hit[5] else None,
        int(begun[1]) if begun else None,
        int(hit[6]) if hit and hit[6] else None,
    )


def dump_of(count: int) -> Callable[[Sequence[str]], Tuple[int, bytes]]:
    """What reads the address and the bytes of dump lines, which are so many."""

    def read(row: Sequence[str]) -> Tuple[int, bytes]:
        found = [_fields(_DUMP, line) for line in row]
        content = bytes.fromhex("".join(it[1] for it in found))
        if not found or len(content) != count:
            _other("\n".join(row))
        return int(found[0][0], 16), content

    return read


def breakpoint_of(line: str) -> Tuple[int, int]:
    """The core and the address that the line of a breakpoint says."""
    core, address = _fields(_BREAK, line)
    return int(core), int(address, 16)


def made(row: Sequence[str]) -> int:
    """How many steps are made."""
    return int(_fields(_MADE, _one(row))[0])


def agreed(row: Sequence[str]) -> None:
    """That a command was done."""
    if list(row) != ["ok"]:
        _other("\n".join(row))


def _one(row: Sequence[str]) -> str:
    if len(row) != 1:
        _other("\n".join(row))
    return row[0]


def _numbers(words: str) -> Tuple[int, ...]:
    return () if words == "-" else tuple(int(word, 16) for word in words.split(" "))


def _fields(form: Pattern[str], line: str) -> List[str]:
    """The parts of a line of this form; one that is not there is empty."""
    found = form.fullmatch(line)
    if not found:
        _other(line)
    return [part or "" for part in found.groups()]


def _other(line: str) -> NoReturn:
    raise ValueError(f"another form: {line!r}")
