"""elide from Python: a thin layer over the simulator's program.

    import elide

    with elide.Program.from_file("counter.asm") as program:
        with program.machine(cores=2) as machine:
            machine.step(0)
            machine.run(10)
            print(machine.regs(0).eax, machine.memory("count", 4), machine.why(1))
        print(elide.run(program, cores=2, random=7, show="count").values)
        failure = elide.hunt(program, cores=2, check="count == 2")
        found = elide.outcomes(program, "count", cores=2)

The program does all the work, in a process of its own; nothing of the machine is in this package.
Which program is run: see `program_path`.
"""

from ._path import program_path
from .commands import hunt, outcomes, replay, run, threads
from .errors import (
    BadAnswer,
    Error,
    Fault,
    Misuse,
    ProgramEnded,
    ProgramNotFound,
    SourceWarning,
)
from .machine import Machine
from .program import Program
from .records import (
    Dump,
    Failure,
    Length,
    Outcome,
    Outcomes,
    Pending,
    Reason,
    Registers,
    Replay,
    Run,
    Sets,
    Shown,
    State,
    Step,
    Steps,
    Stop,
    Stuck,
    Violation,
)

__version__ = "0.3.0"

__all__ = [
    "BadAnswer",
    "Dump",
    "Error",
    "Failure",
    "Fault",
    "Length",
    "Machine",
    "Misuse",
    "Outcome",
    "Outcomes",
    "Pending",
    "Program",
    "ProgramEnded",
    "ProgramNotFound",
    "Reason",
    "Registers",
    "Replay",
    "Run",
    "Sets",
    "Shown",
    "SourceWarning",
    "State",
    "Step",
    "Steps",
    "Stop",
    "Stuck",
    "Violation",
    "hunt",
    "outcomes",
    "program_path",
    "replay",
    "run",
    "threads",
]
