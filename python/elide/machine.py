"""A machine: a session of `elide debug`, by pipes."""

import threading
import time
from contextlib import contextmanager
from types import TracebackType
from typing import (
    TYPE_CHECKING,
    Callable,
    Iterator,
    List,
    Optional,
    Sequence,
    Tuple,
    Type,
    TypeVar,
    Union,
)

from . import _lines
from ._options import Schedule
from ._process import Process, lines
from .errors import REFUSALS, BadAnswer, Error, Fault, ProgramEnded
from .records import Pending, Reason, Registers, Sets, Step, Steps

if TYPE_CHECKING:
    from .program import Program

T = TypeVar("T")

# A word that is no command stands behind each command: what it is refused with ends the answer. No
# command of this module's is refused so, which are known words in lines that are not too long.
MARK, MARKED = b"end-of-answer\n", b"error 70\n"

# The most bytes of a command's line, and of memory that one command prints.
MOST_LINE, MOST_BYTES = 256, 256

# The most bytes of an answer, and of a step's line: more of them are no answer of elide's.
MOST_ANSWER, OF_A_STEP = 1 << 20, 64

# What a session that can make no further step is refused with; and what ends a run, by its last
# line.
FULL = "error 74"
ENDS = {
    "all stopped": "all stopped",
    "the schedule has ended": "the schedule has ended",
    FULL: "limit",
}

_NAMES = ("interrupt", "eviction", "snoop", "drain")
EVENTS = {**{it: it[0] for it in _NAMES}, **{it[0]: it[0] for it in _NAMES}}


class Machine:
    """A machine that stands between two steps; `Program.machine` makes one.

    Close it, or use it in a `with` block: its process ends then. Several threads may use one
    machine; the calls go one after another. Each call raises Fault where the session refuses it,
    which then goes on, and ProgramEnded where the program has ended, as does each call behind that
    one.
    """

    def __init__(
        self,
        program: "Program",
        command: Sequence[str],
        plan: Schedule,
        timeout: Optional[float] = None,
    ) -> None:
        self._program = program
        self._command = command
        self._plan = plan
        self._timeout = timeout
        self._picks: List[str] = []
        self._lock = threading.RLock()
        self._is_closed = False
        self._broken: Optional[Error] = None
        self._process = Process(command, has_input=True)
        try:
            self._begin()
        except BaseException:
            self._process.end()
            raise

    # What the machine is asked.

    def step(self, core: int, event: Optional[str] = None) -> Step:
        """One step of a core, under an event where one is given: from outside, `interrupt`,
        `eviction` or `snoop`, or `drain`, of the core's oldest pending store; or its first
        letter."""
        letter = ""
        if event is not None:
            if event not in EVENTS:
                raise ValueError(f"no event {event!r}; there are {', '.join(_NAMES)}")
            letter = EVENTS[event]
        pick = f"{core:d}{letter}"
        with self._turn(f"step {pick}"):
            made = self._told(f"step {pick}", lambda it: _one_step(it, len(self._picks) + 1))
            self._picks.append(pick)
            return made

    def run(self, count: int) -> Steps:
        """So many steps, 1 to 100,000: along the schedule that the machine was made with, and
        without one round by round over the cores that have not stopped. What ends it earlier is
        told by `Steps.end`; a breakpoint before the first step ends nothing."""
        command = f"{'next' if self._plan.is_given else 'run'} {count:d}"
        with self._turn(command):
            try:
                row = self._ask(command, OF_A_STEP * (max(count, 0) + 2))
            except BaseException:
                # What it told of steps before it ended, or was broken off, is not lost.
                self._keep(lines(self._process.out[: self._process.out.rfind(b"\n") + 1]))
                raise
            if row != [FULL]:
                self._refuse(command, row)
            made = self._keep(row)
            return self._read(command, row[len(made) :], lambda it: _ended(it, made))

    def back(self, count: int) -> int:
        """Takes the last so many steps back, and says how many are left."""
        with self._turn(f"back {count:d}"):
            left = self._told(f"back {count:d}", _lines.made)
            del self._picks[left:]
            return left

    def regs(self, core: int) -> Registers:
        """The state and the registers of a core."""
        return self._told(f"regs {core:d}", _lines.registers)

    def memory(self, at: Union[int, str, bytes], count: int) -> bytes:
        """So many bytes of memory, from an address on: a number, a symbol of the program, or a sum
        of a symbol and a number, as `table+8`."""
        found = bytearray()
        with self._lock:
            where = self._word(at)
            while True:
                some = min(count - len(found), MOST_BYTES)
                address, content = self._told(f"mem {where} {some:d}", _lines.dump_of(some))
                found += content
                if len(found) >= count:
                    return bytes(found)
                where = str(address + some)

    def value(self, at: Union[int, str, bytes]) -> int:
        """The doubleword at an address: four bytes as a number, the lowest first."""
        return int.from_bytes(self.memory(at, 4), "little")

    def sets(self, core: int) -> Sets:
        """The lines that a core's transaction has read and written."""
        return self._told(f"sets {core:d}", _lines.sets)

    def pending(self, core: int) -> Tuple[Pending, ...]:
        """The stores of a core that are not in memory yet, the oldest first."""
        return self._told(f"pending {core:d}", _lines.pending)

    def why(self, core: int) -> Optional[Reason]:
        """Why the next step of a core is an abort, if no event comes in its place; None where it is
        none."""
        return self._told(f"why {core:d}", _lines.reason)

    def listing(self, at: Union[int, str, bytes], count: int) -> Tuple[str, ...]:
        """So many lines of the code's listing, 1 to 64, from an address on; fewer at its end."""
        return self._told(f"list {self._word(at)} {count:d}", tuple)

    def set_break(self, at: Union[int, str, bytes]) -> None:
        """Sets a breakpoint: `run` stops before the instruction there."""
        self._told(f"break {self._word(at)}", _lines.agreed)

    def clear_break(self, at: Union[int, str, bytes]) -> None:
        """Takes the breakpoint at an address away."""
        self._told(f"clear {self._word(at)}", _lines.agreed)

    @property
    def schedule(self) -> List[str]:
        """The picks made so far, as words that `steps` and `--steps` take: `0`, `1i`. Of a schedule
        that was drawn or came from a file the event of a step is known where it aborted; one that
        aborted nothing changed nothing."""
        with self._lock:
            return list(self._picks)

    @property
    def pid(self) -> int:
        """The number of the program's process."""
        return self._process.pid

    # Its end.

    def close(self) -> None:
        """Ends the session and its process. A second call does nothing."""
        with self._lock:
            if not self._is_closed:
                self._is_closed = True
                self._process.leave()

    def __enter__(self) -> "Machine":
        self._check_open()
        return self

    def __exit__(
        self,
        kind: Optional[Type[BaseException]],
        error: Optional[BaseException],
        trace: Optional[TracebackType],
    ) -> None:
        self.close()

    def __repr__(self) -> str:
        state = "closed" if self._is_closed else f"{len(self._picks)} steps"
        return f"<elide.Machine {self._program.name}, {state}>"

    # The session.

    def _begin(self) -> None:
        """Waits until the session answers, which shows that it has begun, and that it is
        elide's."""
        row = self._exchange("", b"", MOST_ANSWER)
        if row:
            raise BadAnswer(self._asked(""), "\n".join(row))
        self._program.tell(lines(self._process.err), 4)
        self._process.err.clear()

    @contextmanager
    def _turn(self, command: str) -> Iterator[None]:
        """The time of one command. Where Ctrl-C breaks it off, the session is over: nobody knows
        what it has done, and its answer must not become that of the next."""
        with self._lock:
            self._check()
            try:
                yield
            except Exception:
                raise
            except BaseException:
                self._break_off(command)
                raise

    def _break_off(self, command: str) -> None:
        self._process.end()
        if self._broken is None:
            asked = f"{self._asked(command)}, broken off"
            self._broken = ProgramEnded(self._process.status, command=asked)

    def _told(self, command: str, read: Callable[[Sequence[str]], T]) -> T:
        """The answer to a command, as it is read. Raises Fault where it is refused."""
        with self._turn(command):
            row = self._ask(command)
            self._refuse(command, row)
            return self._read(command, row, read)

    def _ask(self, command: str, most: int = MOST_ANSWER) -> List[str]:
        """The lines of the answer to a command."""
        line = command.encode("utf-8", errors="surrogateescape")
        if len(line) > MOST_LINE:
            raise self._fault(70, f"more than {MOST_LINE} bytes: {command}")
        return self._exchange(command, line + b"\n", most)

    def _word(self, at: Union[int, str, bytes]) -> str:
        """An address as a word of a command. A name with a space or a line's end in it cannot be
        one, and is refused as a word that is no symbol is."""
        if isinstance(at, int):
            return f"{at:d}"
        word = at.decode("utf-8", errors="surrogateescape") if isinstance(at, bytes) else at
        if not word or any(c in " \r\n" for c in word):
            raise self._fault(71, f"an address has no spaces and line ends: {word!r}")
        return word

    def _refuse(self, command: str, row: Sequence[str]) -> None:
        """Raises Fault where an answer is a refusal."""
        number = _lines.refusal(row)
        if number is not None:
            raise self._fault(number, command)

    def _fault(self, number: int, text: str) -> Fault:
        """What the session refuses."""
        return Fault(number, REFUSALS.get(number, ""), None, text, file=self._program.name)

    def _asked(self, command: str) -> str:
        """A command, as messages tell it."""
        session = f"elide debug {self._program.name}"
        return f"{session}: {command}" if command else session

    def _exchange(self, command: str, line: bytes, most: int) -> List[str]:
        """Sends a line, and gives the lines that stand before the mark's answer. The session is
        over where that does not come."""
        deadline = None if self._timeout is None else time.monotonic() + self._timeout
        process = self._process
        try:
            process.write(line + MARK)
            while not _is_whole(process.out):
                if not process.is_writing:
                    self._broken = self._end_of(command)
                    raise self._broken
                if len(process.out) > most:
                    wrote = process.out[:400].decode("utf-8", errors="replace")
                    self._broken = BadAnswer(self._asked(command), wrote)
                    raise self._broken
                process.pump(deadline)
        except BaseException:
            self._break_off(command)
            raise
        row = lines(process.out)
        process.out.clear()
        return row[:-1]

    def _end_of(self, command: str) -> Error:
        """What the end of the program told."""
        process = self._process
        status = process.finish()
        said = lines(process.err)
        text = "\n".join([*lines(process.out), *said])
        return self._program.error(status, text, self._asked(command), said, self._plan.name)

    def _read(self, command: str, row: Sequence[str], read: Callable[[Sequence[str]], T]) -> T:
        """An answer as it is read. One that cannot be ends the session."""
        try:
            return read(row)
        except ValueError as error:
            self._process.end()
            self._broken = BadAnswer(self._asked(command), "\n".join(row))
            raise self._broken from error

    def _keep(self, row: Sequence[str]) -> List[Step]:
        """Keeps the steps that the first lines of an answer tell."""
        made: List[Step] = []
        for line in row:
            try:
                step = _lines.step(line, len(self._picks) + 1)
            except ValueError:
                break
            made.append(step)
            self._picks.append(self._pick_of(step))
        return made

    def _pick_of(self, step: Step) -> str:
        """The pick of a step: the one that the list of steps has there, else what its line
        tells."""
        picks = self._plan.picks
        return step.pick if picks is None else picks[step.number - 1]

    def _check_open(self) -> None:
        if self._is_closed:
            raise ValueError("the machine is closed")

    def _check(self) -> None:
        """Raises what the session ended with, where it is over."""
        self._check_open()
        if self._broken is not None:
            raise self._broken


def _is_whole(out: bytearray) -> bool:
    return out.endswith(MARKED) and (len(out) == len(MARKED) or out[-len(MARKED) - 1] == 10)


def _one_step(row: Sequence[str], number: int) -> Step:
    if len(row) != 1:
        raise ValueError("one line is wanted")
    return _lines.step(row[0], number)


def _ended(row: Sequence[str], made: Sequence[Step]) -> Steps:
    """What ended a run, by the line behind those of its steps, if there is one."""
    if not row:
        return Steps(tuple(made))
    if len(row) > 1:
        raise ValueError(row[1])
    if row[0] in ENDS:
        return Steps(tuple(made), ENDS[row[0]])
    return Steps(tuple(made), "break", *_lines.breakpoint_of(row[0]))
