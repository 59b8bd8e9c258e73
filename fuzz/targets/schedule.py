"""Schedules: `run --schedule`, `replay --schedule`, `run --steps`, `--record`."""

import forms
import readers
from target import Target, cases_of, expect, expect_fault, is_text, is_wanting, words_of

# Three cores that conflict, and stop after some steps.
PROGRAM = b"""start:  mov ecx, 3
again:  xbegin failed
        inc dword [count]
        xend
failed: lock inc dword [other]
        dec ecx
        jnz again
        hlt
section .data
count:  dd 0
        align 64
other:  dd 0
"""
CORES = 3
MACHINE = ("case.asm", "--cores", str(CORES))
# The most steps that are traced, and those that are made at all: more of them for one case in some.
MOST_TRACED, MOST_MADE = 3000, 200_000


class Schedules(Target):
    name = "schedule"
    tokens = words_of("schedule.words")

    def seeds(self):
        return cases_of("schedule.txt")

    def made(self, draw):
        form = draw.randrange(1, 4)
        words = []
        for _ in range(draw.randrange(60)):
            event = draw.choice(["", "", "i", "e", "s"]) if form == 3 else ""
            count = f"*{draw.randrange(1, 20)}" if form > 1 and draw.randrange(3) == 0 else ""
            words.append(f"{draw.randrange(CORES)}{event}{count}")
        return f"schedule {form}\n{' '.join(words)}\n".encode()

    def look(self, case, starter):
        starter.write("case.asm", PROGRAM)
        name = starter.write("schedule.txt", case)
        self.look_at(case, readers.read_schedule, ["--schedule", name], starter, None)
        if len(case) < 50_000 and b"\0" not in case and is_text(case):
            self.look_at(case, readers.read_steps, ["--steps=" + case.decode()], starter, "--steps")

    def look_at(self, case, read, words, starter, option):
        """What a reader of its own says of the case is what the program says of it."""
        try:
            runs = read(case)
        except readers.Refused as refused:
            for command in ("run", "replay"):
                answer = starter.start(command, *MACHINE, *words)
                if option and refused.fault[0] == 52:
                    expect(answer.err == b"usage: --steps\n", "steps that are not refused as misused")
                else:
                    expect_fault(answer, refused.fault)
            return
        total = sum(run.count for run in runs)
        if any(run.core >= CORES for run in runs):
            expect_fault(starter.start("run", *MACHINE, *words), (42, None))
            expect_fault(starter.start("replay", *MACHINE, *words), (42, None))
        elif total <= MOST_TRACED:
            traced = look_at_traced(runs, words, starter)
            if self.is_turn(case, 1, 3):
                look_at_session(runs, words, traced, starter)
            if self.is_turn(case, 2, 6):
                starter.again(starter.answers[-1])
        elif total <= MOST_MADE or self.is_turn(case, 0, 10):
            starter.start("run", *MACHINE, *words)


def look_at_traced(runs, words, starter):
    """The outcomes, which are those of the cores of the steps; `replay` agrees, and `--record` is read back."""
    answer = starter.start("run", *MACHINE, *words, "--trace")
    lines = answer.out.split(b"\n")[:-1]
    steps = [run.core for run in runs for _ in range(run.count)]
    expect(answer.status == 0 and len(lines) == len(steps) + CORES, "another number of outcomes than of steps")
    expect(all(forms.OUTCOME.fullmatch(line) for line in lines[:-CORES]), "an outcome of no known form")
    kinds = [forms.kind_of_line(line) for line in lines]
    starter.kinds |= {(b"steps", *pair) for pair in zip(kinds, kinds[1:])}
    told = [int(line.split()[0]) for line in lines[:-CORES]]
    expect(told == steps, "outcomes of other cores than those of the schedule")
    replayed = starter.start("replay", *MACHINE, *words, "--record", "record.txt")
    if is_wanting(replayed):
        return lines[:-CORES]
    expect(replayed.status == 0 and replayed.out.endswith(b"\nagree\n"), "a history that ended otherwise")
    state = b"".join(line + b"\n" for line in lines[-CORES:])
    expect(replayed.out[:-6] == state, "another end of a replay than of a run")
    record = starter.read("record.txt")
    expect(record is not None, "nothing is recorded")
    look_at_record(record, runs, steps, answer, starter)
    return lines[:-CORES]


def look_at_session(runs, words, outcomes, starter):
    """The debugger makes the same steps, along the schedule and by their words, and `stats` counts them."""
    steps = [b"step %d%s\n" % (run.core, run.event) for run in runs for _ in range(run.count)]
    wanted = b"".join(line + b"\n" for line in outcomes) + b"bye\n"
    stepped = starter.start("debug", *MACHINE, given=b"".join(steps))
    expect(is_wanting(stepped) or stepped.out == wanted, "other outcomes of the debugger's steps than of the schedule")
    if steps:
        gone = starter.start("debug", *MACHINE, *words, given=b"next %d\n" % len(steps))
        expect(is_wanting(gone) or gone.out == wanted, "other outcomes along the debugger's schedule")
    counted = starter.start("stats", *MACHINE, *words)
    expect(counted.out.startswith(b"steps %d " % len(steps)), "another number of steps than the schedule has")


def look_at_record(record, runs, steps, answer, starter):
    if not any(run.event for run in runs):
        expect(record == readers.schedule_text(runs), "another record than the schedule")
    recorded = [run.core for run in readers.read_schedule(record) for _ in range(run.count)]
    expect(recorded == steps, "a record of other cores")
    again = starter.start("run", *MACHINE, "--schedule", "record.txt", "--trace")
    expect(again.out == answer.out, "another run of the record")
