"""What the program answers, as records."""

from dataclasses import dataclass
from typing import Dict, FrozenSet, Iterator, Optional, Tuple


@dataclass(frozen=True)
class Registers:
    """The state and the registers of a core. Of a condemned core these are those that it had before
    its outermost XBEGIN.

    `state` is `run`, `mid` (between the two steps of an instruction), `tx`, `condemned`, or `stop:`
    and the cause. `depth` is how many XBEGINs deep its transaction is, of a condemned core was, 0
    where there is none, and None of a condemned core in a session, which does not tell it. `flags`
    has the names of those that are set, of CF PF AF ZF SF OF in this order.
    """

    core: int
    state: str
    depth: Optional[int]
    eax: int
    ecx: int
    edx: int
    ebx: int
    esp: int
    ebp: int
    esi: int
    edi: int
    eip: int
    flags: Tuple[str, ...]

    @property
    def stop(self) -> Optional[str]:
        """Why the core has stopped, as `HLT` or `#GP`, or None where it has not."""
        front, _, cause = self.state.partition(":")
        return cause if front == "stop" else None


@dataclass(frozen=True)
class Step:
    """What a step was. `number` counts the steps from 1.

    `outcome` is `plain`, `loaded` (the first of two steps), `stopped`, `idle`, `begun`, `inside`,
    `committed`, `aborted` or `drained` (the core's oldest pending store reached memory). `cause`
    says why a core stopped; `status` is that of an abort, in EAX; `event` is `interrupt`,
    `eviction` or `snoop` where one from outside aborted.
    """

    number: int
    core: int
    outcome: str
    cause: Optional[str] = None
    status: Optional[int] = None
    event: Optional[str] = None

    @property
    def pick(self) -> str:
        """The step as a word of a schedule: `0`, `1i` where an interrupt aborted it, or `0d` where
        it was a drain."""
        letter = "d" if self.outcome == "drained" else self.event[0] if self.event else ""
        return f"{self.core}{letter}"

    def __str__(self) -> str:
        status = None if self.status is None else f"{self.status:08x}"
        parts = (str(self.core), self.outcome, self.cause, status, self.event)
        return " ".join(part for part in parts if part)


@dataclass(frozen=True)
class Steps:
    """The steps that a call of `Machine.run` made.

    `end` says what ended it before all were made, else it is None: `all stopped`, `the schedule has
    ended`, `limit` (a session makes 1,000,000 steps), or `break`, where core `core` stands before
    the instruction at `address`.
    """

    steps: Tuple[Step, ...]
    end: Optional[str] = None
    core: Optional[int] = None
    address: Optional[int] = None

    def __iter__(self) -> Iterator[Step]:
        return iter(self.steps)

    def __len__(self) -> int:
        return len(self.steps)


@dataclass(frozen=True)
class Sets:
    """The lines that a core's transaction has read and written, as numbers: an address divided by
    64. `state` and `depth` are those of Registers."""

    core: int
    state: str
    depth: Optional[int]
    reads: Tuple[int, ...]
    writes: Tuple[int, ...]


@dataclass(frozen=True)
class Pending:
    """A store of a core that is not in memory yet: its address, the value, and how many bytes it
    stores, 1 or 4."""

    core: int
    address: int
    value: int
    size: int


@dataclass(frozen=True)
class Reason:
    """Why the next step of a core is an abort.

    `text` is the whole reason and `cause` its first words, as `conflict`, `capacity` or `xabort`.
    Where another core's step doomed the transaction: `line` is the lowest line that was hit,
    `access` is `read` or `written`, by step `step` (from 1) of core `by`, whose instruction is at
    `address`; or `drained`, where a store that was pending reached memory: then the instruction at
    `address` made the store, at step `stored`. `begun` is the step of the outermost XBEGIN.
    """

    core: int
    text: str
    cause: str
    line: Optional[int] = None
    access: Optional[str] = None
    step: Optional[int] = None
    by: Optional[int] = None
    address: Optional[int] = None
    begun: Optional[int] = None
    stored: Optional[int] = None

    def __str__(self) -> str:
        return self.text


@dataclass(frozen=True)
class Dump:
    """A part of memory: its bytes, and the address of the first."""

    address: int
    content: bytes


@dataclass(frozen=True)
class Shown:
    """The doubleword at a sum of symbols and numbers: the sum's text, the address, the value."""

    at: str
    address: int
    value: int


@dataclass(frozen=True)
class State:
    """What a machine has come to: its cores by their numbers, and what `dump` and `show` asked for
    of its memory, in that order."""

    cores: Tuple[Registers, ...]
    dump: Tuple[Dump, ...]
    show: Tuple[Shown, ...]

    @property
    def values(self) -> Dict[str, int]:
        """The values of `show`, by the texts that asked for them."""
        return {it.at: it.value for it in self.show}


@dataclass(frozen=True)
class Run(State):
    """The end of a run.

    `outcomes` are those of its steps where `trace` was set, else it is None. `running` are the
    cores that have not stopped where `expect_halt` was set, so that the run failed if there is one,
    else it is None.
    """

    outcomes: Optional[Tuple[Step, ...]]
    running: Optional[Tuple[int, ...]]


@dataclass(frozen=True)
class Replay(State):
    """The end of a run that was made once more on one memory, each committed transaction as a
    whole: `agree` says whether both came to the same."""

    agree: bool


@dataclass(frozen=True)
class Length:
    """How long a schedule is: its steps, how often a step is of another core than the one before,
    and how many steps an event aborted."""

    steps: int
    switches: int
    events: int


@dataclass(frozen=True)
class Failure:
    """The run that failed in a hunt: the one of the lowest number.

    `option` is what it failed, `--check`, `--forbid`, `--stop` or `--expect-halt`, and `check` its
    text, None of the last. `before` and `after` say how long its schedule was, and is once it is
    shortened. `schedule` are the steps of that which decide, whose words `steps` of a machine takes, and
    `deciding` how many they are: all, but of a run that reached the limit on steps, where each core
    steps in turn behind them. `replay` is the command that replays them.
    `ended` and `cut` count the runs before it: in how many each core stopped, and how many reached
    the limit on steps.
    """

    run: int
    option: str
    check: Optional[str]
    before: Length
    after: Length
    deciding: int
    schedule: Tuple[str, ...]
    replay: str
    ended: int
    cut: int


@dataclass(frozen=True)
class Outcome:
    """An outcome of a search: the values in the order of `show`, how many states in which all cores
    have stopped have them, and a shortest schedule that leads to one."""

    values: Tuple[int, ...]
    ends: int
    schedule: Tuple[str, ...]


@dataclass(frozen=True)
class Violation:
    """A check that an end violates: its option, `--check` or `--forbid`, and its text, and a shortest
    schedule that leads to such an end."""

    option: str
    check: Optional[str]
    schedule: Tuple[str, ...]


@dataclass(frozen=True)
class Stop:
    """A reason to stop that was looked for and found, as `#BP`, and a shortest schedule after which some
    core has stopped for it."""

    cause: str
    schedule: Tuple[str, ...]


@dataclass(frozen=True)
class Stuck:
    """States from which no schedule leads to an end: how many there are, and a shortest schedule to
    one."""

    states: int
    schedule: Tuple[str, ...]


@dataclass(frozen=True)
class Outcomes:
    """What a search of all schedules found: the outcomes in the order of their values, the checks that
    ends violate and the stops that were looked for in the order in which they were found, and states
    from which no schedule leads to an end, None where there are none.

    `whole` is False where the search was cut at the limit, so that there may be more.
    """

    show: Tuple[str, ...]
    outcomes: Tuple[Outcome, ...]
    violations: Tuple[Violation, ...]
    stops: Tuple[Stop, ...]
    stuck: Optional[Stuck]
    states: int
    whole: bool

    @property
    def values(self) -> FrozenSet[Tuple[int, ...]]:
        """The values of all outcomes, to be compared with a set."""
        return frozenset(it.values for it in self.outcomes)

    def __iter__(self) -> Iterator[Outcome]:
        return iter(self.outcomes)

    def __len__(self) -> int:
        return len(self.outcomes)
