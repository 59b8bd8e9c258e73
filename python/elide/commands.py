"""Commands of the program that answer once: `run`, `replay`, `threads`, `hunt` and `outcomes`.

The parameters are the options of these commands, by their names; FORMATS.md has what each takes. A
program is a Program, or the path of its file. Each call raises Fault and Misuse where the program
refuses, ProgramEnded where it ends early, and TimeoutError where it takes longer than `timeout`
seconds; no process is left behind, also where Ctrl-C breaks a call off.
"""

import os
import time
from typing import Callable, List, Optional, Sequence, Tuple, TypeVar, Union

from . import _json, _options
from ._options import Address, Schedule, Steps, flag, option, several
from ._path import PathLike
from ._process import Process, lines
from .errors import BadAnswer
from .program import Program
from .records import Failure, Outcomes, Replay, Run, State

T = TypeVar("T")

Entry = Union[None, Address, Sequence[Address]]
Texts = Union[None, str, Sequence[str]]

# How each object of the program's begins.
BEGIN = b'{"format":'


def run(
    program: Union[Program, PathLike],
    cores: int = 1,
    memory: Optional[int] = None,
    *,
    entry: Entry = None,
    reads: Optional[int] = None,
    writes: Optional[int] = None,
    store_buffer: Optional[int] = None,
    steps: Optional[Steps] = None,
    schedule: Optional[PathLike] = None,
    in_turn: bool = False,
    random: Optional[int] = None,
    limit: Optional[int] = None,
    events: Union[None, int, str] = None,
    seed: Optional[int] = None,
    dump: Texts = None,
    show: Texts = None,
    trace: bool = False,
    expect_halt: bool = False,
    record: Optional[PathLike] = None,
    timeout: Optional[float] = None,
) -> Run:
    """Runs a schedule, given by `steps`, `schedule` (a file), `in_turn` or `random`, and gives the
    state at its end.

    `dump` is one part of memory or several, as `count:4`; `show` is one sum or several, as
    `table+8`, whose doublewords are shown. `store_buffer` is how many stores of a core may be
    pending, 0 to 64. With `trace` the outcome of each step is told, with
    `expect_halt` which cores have not stopped.
    """
    options = [
        *_options.machine(cores, memory, entry, reads, writes, store_buffer),
        *several("dump", dump),
        *several("show", show),
        *flag("trace", trace),
        *flag("expect-halt", expect_halt),
        *option("record", record),
    ]
    plan = Schedule(
        steps=steps,
        schedule=schedule,
        in_turn=in_turn,
        random=random,
        limit=limit,
        events=events,
        seed=seed,
    )
    return _answer(program, "run", options, plan, timeout, lambda it, _: _json.run(it))


def replay(
    program: Union[Program, PathLike],
    cores: int = 1,
    memory: Optional[int] = None,
    *,
    entry: Entry = None,
    reads: Optional[int] = None,
    writes: Optional[int] = None,
    store_buffer: Optional[int] = None,
    steps: Optional[Steps] = None,
    schedule: Optional[PathLike] = None,
    in_turn: bool = False,
    random: Optional[int] = None,
    limit: Optional[int] = None,
    events: Union[None, int, str] = None,
    seed: Optional[int] = None,
    dump: Texts = None,
    show: Texts = None,
    record: Optional[PathLike] = None,
    timeout: Optional[float] = None,
) -> Replay:
    """Runs a schedule as `run` does, and its history once more on one memory, each committed
    transaction as a whole; gives the state, and whether both came to the same."""
    options = [
        *_options.machine(cores, memory, entry, reads, writes, store_buffer),
        *several("dump", dump),
        *several("show", show),
        *option("record", record),
    ]
    plan = Schedule(
        steps=steps,
        schedule=schedule,
        in_turn=in_turn,
        random=random,
        limit=limit,
        events=events,
        seed=seed,
    )
    return _answer(program, "replay", options, plan, timeout, lambda it, _: _json.replay(it))


def threads(
    program: Union[Program, PathLike],
    cores: int = 1,
    memory: Optional[int] = None,
    *,
    budget: int,
    burst: Optional[int] = None,
    entry: Entry = None,
    reads: Optional[int] = None,
    writes: Optional[int] = None,
    events: Union[None, int, str] = None,
    seed: Optional[int] = None,
    dump: Texts = None,
    show: Texts = None,
    record: Optional[PathLike] = None,
    timeout: Optional[float] = None,
) -> State:
    """Runs each core on a thread of its own, in an order that nobody chose, and gives the state at
    the end. `budget` is the most steps of each core; `record` is a file that the schedule which
    came about is written to, as `replay` takes it."""
    options = [
        *_options.machine(cores, memory, entry, reads, writes),
        *option("budget", budget),
        *option("burst", burst),
        *several("dump", dump),
        *several("show", show),
        *option("record", record),
    ]
    plan = Schedule(events=events, seed=seed)
    return _answer(program, "threads", options, plan, timeout, lambda it, _: _json.threads(it))


def hunt(
    program: Union[Program, PathLike],
    cores: int = 1,
    memory: Optional[int] = None,
    *,
    check: Texts = None,
    forbid: Texts = None,
    stop: Texts = None,
    expect_halt: bool = False,
    entry: Entry = None,
    reads: Optional[int] = None,
    writes: Optional[int] = None,
    runs: Union[None, int, str, Tuple[int, int]] = None,
    seed: Optional[int] = None,
    method: Optional[str] = None,
    limit: Optional[int] = None,
    events: Union[None, int, str] = None,
    jobs: Optional[int] = None,
    record: Optional[PathLike] = None,
    timeout: Optional[float] = None,
) -> Optional[Failure]:
    """Makes random runs until one fails a check, as `count == 6`, and shortens its schedule: that
    failure, or None where no run fails.

    `check`, `forbid` and `stop` are one text or several; `runs` is how many runs, or the numbers
    `(A, B)` of those from A to B - 1. A run that reaches its limit ends without a failure, unless
    `expect_halt` is set.
    """
    if isinstance(runs, tuple):
        runs = f"{runs[0]:d}..{runs[1]:d}"
    options = [
        *_options.machine(cores, memory, entry, reads, writes),
        *several("check", check),
        *several("forbid", forbid),
        *several("stop", stop),
        *flag("expect-halt", expect_halt),
        *option("runs", runs),
        *option("method", method),
        *option("jobs", jobs),
        *option("record", record),
    ]
    plan = Schedule(limit=limit, events=events, seed=seed)
    return _answer(program, "hunt", options, plan, timeout, _json.failure)


def outcomes(
    program: Union[Program, PathLike],
    show: Union[None, str, Sequence[str]] = None,
    cores: int = 1,
    memory: Optional[int] = None,
    *,
    check: Union[None, str, Sequence[str]] = None,
    forbid: Union[None, str, Sequence[str]] = None,
    stop: Union[None, str, Sequence[str]] = None,
    stuck: bool = False,
    entry: Entry = None,
    reads: Optional[int] = None,
    writes: Optional[int] = None,
    limit: Optional[int] = None,
    events: Optional[str] = None,
    timeout: Optional[float] = None,
) -> Outcomes:
    """Searches all schedules, and gives each outcome of the items of `show`, as `eax@1 count`: a
    text with spaces between, or a list. `show` may be left out where something else is asked for.

    `check`, `forbid` and `stop` are one text or several: what is to hold at each end, what at none,
    and for what no core is to stop; which of them are violated stands in what was found. `stuck` asks
    for states without a way to an end, which stand in it also where nobody asks.

    A search that comes to the limit on states, 1,000,000 where none is given, is cut: `whole` of
    what it found is False then.
    """
    items = show if show is None or isinstance(show, str) else " ".join(show)
    options = [
        *_options.machine(cores, memory, entry, reads, writes),
        *option("show", items),
        *several("check", check),
        *several("forbid", forbid),
        *several("stop", stop),
        *flag("stuck", stuck),
    ]
    plan = Schedule(limit=limit, events=events)
    return _answer(program, "outcomes", options, plan, timeout, lambda it, _: _json.outcomes(it))


def _answer(
    program: Union[Program, PathLike],
    name: str,
    options: Sequence[str],
    plan: Schedule,
    timeout: Optional[float],
    read: Callable[[_json.Fields, _json.Named], T],
) -> T:
    """What a command answers, as it is read."""
    if not isinstance(program, Program):
        program = Program(os.fspath(program))
    with plan as words:
        command = program.command(name, [*options, *words, "--json"])
        asked = f"elide {name} {program.name}"
        status, text, said = _run(command, asked, timeout)
    if status not in (0, 3) and not _json.is_whole(text, status):
        told = "\n".join([text, *said] if text else said)
        raise program.error(status, told, asked, said, plan.name)
    program.tell(said, 3)
    try:
        return read(_json.object_of(text, name, status), program.named)
    except ValueError as error:
        raise BadAnswer(f"{asked}: {error}", text) from error


def _run(
    command: Sequence[str], asked: str, timeout: Optional[float]
) -> Tuple[int, str, List[str]]:
    """The status of a command, what it prints, and the lines that it says on standard error."""
    deadline = None if timeout is None else time.monotonic() + timeout
    process = Process(command, has_input=False)
    try:
        while process.is_writing:
            process.pump(deadline)
            if not BEGIN.startswith(process.out[: len(BEGIN)]):
                raise BadAnswer(asked, process.out.decode("utf-8", errors="replace"))
        process.finish(deadline)
    finally:
        process.end()
    text = process.out.decode("utf-8", errors="replace")
    return process.status, text, lines(process.err)
