"""Commands that answer once, by the program."""

import dataclasses
import os
import pathlib
import unittest
import warnings
from typing import Callable, Optional, Tuple, Union

import elide

from .support import COUNTER, ENDLESS, LOST, Case, example

NO_READ = example("faulty/no-read.asm")

# Core 0 commits while core 1 has the counter in its read set.
CONFLICT = "0 0 1 1 0 0 0 1"


class Calls(Case):
    """What the commands have in common."""

    def test_paths(self) -> None:
        path = self.file("lost.asm", LOST)
        programs: Tuple[Union[str, pathlib.Path, elide.Program], ...]
        programs = (path, pathlib.Path(path), elide.Program.from_file(path))
        for it in programs:
            self.assertEqual(elide.outcomes(it, "count").values, {(1,)})
            failure = elide.hunt(it, check="count == 2")
            assert failure is not None
            self.assertTrue(failure.replay.startswith(f"elide replay {path} "))

    def test_a_warning(self) -> None:
        path = self.file("warned.asm", "xned\nhlt\n")
        calls: Tuple[Callable[[], object], ...] = (
            lambda: elide.outcomes(path, "eax@0"),
            lambda: elide.hunt(path, stop="#GP", runs=3),
            lambda: elide.run(path, steps="0"),
            lambda: elide.replay(path, steps="0"),
            lambda: elide.threads(path, budget=1),
        )
        for call in calls:
            with warnings.catch_warnings(record=True) as caught:
                warnings.simplefilter("always")
                call()
            self.assertEqual([it.category for it in caught], [elide.SourceWarning])
            self.assertTrue(str(caught[0].message).startswith(f"{path}:1: "))
            self.assertEqual(caught[0].filename, __file__)


class Runs(Case):
    """`run`, `replay` and `threads`."""

    def test_a_state(self) -> None:
        with elide.Program.from_source(COUNTER) as program:
            done = elide.run(program, 2, steps=CONFLICT, dump="count:8", show=["count", "count+4"])
            self.assertEqual([it.core for it in done.cores], [0, 1])
            self.assertEqual([it.state for it in done.cores], ["run", "run"])
            self.assertEqual([it.eax for it in done.cores], [1, 6])
            (part,) = done.dump
            self.assertEqual(part.content, b"\x01" + bytes(7))
            one, other = done.show
            self.assertEqual(one, elide.Shown("count", part.address, 1))
            self.assertEqual(other, elide.Shown("count+4", part.address + 4, 0))
            self.assertEqual(done.values, {"count": 1, "count+4": 0})
            self.assertEqual((done.outcomes, done.running), (None, None))

    def test_it_is_the_state_of_a_session(self) -> None:
        with elide.Program.from_source(COUNTER) as program:
            for count in range(9):
                steps = CONFLICT.split()[:count]
                done = elide.run(program, 2, steps=steps, trace=True)
                with program.machine(2, steps=steps) as machine:
                    self.assertEqual(done.outcomes, machine.run(10).steps)
                    for it in done.cores:
                        if it.state == "condemned":
                            self.assertEqual(it.depth, 1)
                            it = dataclasses.replace(it, depth=None)
                        self.assertEqual(it, machine.regs(it.core))

    def test_outcomes(self) -> None:
        with elide.Program.from_source(COUNTER) as program:
            done = elide.run(program, steps=["0", "0i"], trace=True)
            begun, aborted = done.outcomes or ()
            self.assertEqual(begun, elide.Step(1, 0, "begun"))
            self.assertEqual(aborted, elide.Step(2, 0, "aborted", status=0, event="interrupt"))
            self.assertEqual(elide.run(program, steps="", trace=True).outcomes, ())

    def test_what_has_not_stopped(self) -> None:
        with elide.Program.from_source(ENDLESS) as program:
            done = elide.run(program, 2, in_turn=True, limit=10, expect_halt=True)
            self.assertEqual(done.running, (0, 1))
        with elide.Program.from_source("hlt") as program:
            done = elide.run(program, in_turn=True, expect_halt=True)
            self.assertEqual(done.running, ())
            self.assertEqual(done.cores[0].stop, "HLT")

    def test_schedules(self) -> None:
        record = self.folder + "/schedule.txt"
        with elide.Program.from_source(COUNTER) as program:
            for events in (None, "1/2:snoop"):
                done = elide.run(program, 3, random=7, events=events, trace=True, record=record)
                self.assertEqual(elide.run(program, 3, schedule=record, trace=True), done)
            steps = [it.pick for it in done.outcomes or ()]
            self.assertEqual(elide.run(program, 3, steps=steps, trace=True), done)
            cut = elide.run(program, 3, in_turn=True, limit=5, trace=True)
            self.assertEqual([it.core for it in cut.outcomes or ()], [0, 1, 2, 0, 1])

    def test_a_replay(self) -> None:
        with elide.Program.from_source(COUNTER) as program:
            done = elide.replay(program, 2, steps=CONFLICT, dump=["count:4"], show="count")
            self.assertTrue(done.agree)
            run = elide.run(program, 2, steps=CONFLICT, dump="count:4", show="count")
            self.assertEqual((done.cores, done.dump, done.show), (run.cores, run.dump, run.show))

    def test_threads(self) -> None:
        record = self.folder + "/schedule.txt"
        with elide.Program.from_file(example("elision.asm")) as program:
            done = elide.threads(program, 4, budget=1_000_000, show="count", record=record)
            self.assertEqual(done.values, {"count": 4000})
            self.assertEqual([it.stop for it in done.cores], ["HLT"] * 4)
            again = elide.replay(program, 4, schedule=record, show="count")
            self.assertEqual((again.agree, again.cores), (True, done.cores))
            done = elide.threads(program, 2, budget=10, burst=1, events="1/2", seed=3)
            self.assertEqual((len(done.cores), done.dump, done.show), (2, (), ()))


class Hunts(Case):
    """`hunt`."""

    def test_a_failure(self) -> None:
        with elide.Program.from_file(NO_READ) as program:
            failure = elide.hunt(program, cores=2, check="count == 6")
            assert failure is not None
            self.assertEqual(
                (failure.run, failure.option, failure.check), (1, "--check", "count == 6")
            )
            self.assertEqual(failure.before, elide.Length(66, 11, 0))
            self.assertEqual(failure.after, elide.Length(47, 4, 0))
            self.assertEqual((failure.ended, failure.cut), (1, 0))
            self.assertEqual((len(failure.schedule), failure.deciding), (47, 47))
            self.assertTrue(failure.replay.startswith(f"elide replay {NO_READ} --cores 2 --steps "))
            with program.machine(cores=2, steps=failure.schedule) as machine:
                machine.run(47)
                self.assertEqual(machine.value("count"), 4)

    def test_a_failure_by_an_event(self) -> None:
        path = example("faulty/status-zero.asm")
        record = self.folder + "/schedule.txt"
        failure = elide.hunt(path, 2, check="count == 6", events="draw", record=record)
        assert failure is not None
        self.assertEqual(failure.after.events, 1)
        self.assertIn("1i", failure.schedule)
        self.assertIn(f"--schedule {record}", failure.replay)
        with elide.Program.from_file(path) as program:
            with program.machine(2, schedule=record) as machine:
                made = machine.run(1000)
                self.assertEqual([it.pick for it in made], list(failure.schedule))
                self.assertEqual(machine.value("count"), 5)

    def test_no_failure(self) -> None:
        path = example("fixed/elision.asm")
        self.assertIsNone(elide.hunt(path, 2, check=["count == 6", "mutex == 0"], runs=200, jobs=2))

    def test_the_runs_that_are_asked_for(self) -> None:
        failure = elide.hunt(NO_READ, 2, check="count == 6", runs=(1, 2), seed=1, method="mix")
        assert failure is not None
        self.assertEqual((failure.run, failure.ended), (1, 0))
        self.assertIsNone(elide.hunt(NO_READ, 2, check="count == 6", runs=1))

    def test_other_checks(self) -> None:
        with elide.Program.from_source("ud2") as program:
            failure = elide.hunt(program, stop="#UD")
            assert failure is not None
            self.assertEqual((failure.option, failure.check), ("--stop", "#UD"))
            failure = elide.hunt(program, check="eax@0 == 0", forbid=["ecx@0 == 0", "ecx@0 == 1"])
            assert failure is not None
            self.assertEqual((failure.option, failure.check), ("--forbid", "ecx@0 == 1"))
            self.assertIn("elide replay source.asm ", failure.replay)
        with elide.Program.from_source(ENDLESS) as program:
            failure = elide.hunt(program, expect_halt=True, limit=100)
            assert failure is not None
            self.assertEqual((failure.option, failure.check), ("--expect-halt", None))
            self.assertEqual((failure.after.steps, failure.deciding, failure.schedule), (100, 0, ()))


class Searches(Case):
    """`outcomes`."""

    def test_outcomes(self) -> None:
        path = example("litmus/message-passing.asm")
        found = elide.outcomes(path, "eax@1 ebx@1", cores=2, entry=["writer", "reader"])
        self.assertEqual(found.values, {(0, 0), (0, 1), (1, 1)})
        self.assertEqual((found.show, found.states, found.whole), (("eax@1", "ebx@1"), 13, True))
        self.assertEqual(found.outcomes[0], elide.Outcome((0, 0), 1, tuple("111000")))
        self.assertEqual(len(found), 3)
        listed = elide.outcomes(path, ["eax@1", "ebx@1"], cores=2, entry="writer,reader")
        self.assertEqual(listed, found)
        program = elide.Program.from_file(path)
        for it in found:
            with program.machine(2, entry="writer,reader", steps=it.schedule) as machine:
                machine.run(100)
                regs = machine.regs(1)
                self.assertEqual((regs.eax, regs.ebx), it.values)

    def test_a_search_that_is_cut(self) -> None:
        with elide.Program.from_source(LOST) as program:
            found = elide.outcomes(program, "count", cores=2, limit=5)
            self.assertFalse(found.whole)
            found = elide.outcomes(program, "count", cores=2)
            self.assertTrue(found.whole)
            self.assertEqual(found.values, {(1,), (2,)})

    def test_what_is_wrong(self) -> None:
        path = example("faulty/crosswise.asm")
        entry = "first,second"
        found = elide.outcomes(
            path, cores=2, entry=entry, check="count == 2", forbid="left == 0", stuck=True
        )
        (told,) = found.violations
        self.assertEqual((told.option, told.check), ("--forbid", "left == 0"))
        self.assertEqual((found.show, found.stops), ((), ()))
        assert found.stuck is not None
        with elide.Program.from_file(path) as program:
            with program.machine(2, entry=entry, steps=told.schedule) as machine:
                machine.run(100)
                self.assertEqual((machine.value("count"), machine.value("left")), (2, 0))
        (stop,) = elide.outcomes(path, cores=2, entry=entry, stop="HLT").stops
        self.assertEqual(stop.cause, "HLT")

    def test_events(self) -> None:
        with elide.Program.from_source(COUNTER) as program:
            found = elide.outcomes(program, "count", events="interrupt")
            self.assertEqual(found.values, {(0,), (1,)})
            self.assertIn("0i", found.outcomes[0].schedule)


class Refusals(Case):
    """A fault and a misuse of each command."""

    def test_faults(self) -> None:
        with elide.Program.from_source("jmp nowhere\n", name="bad.asm") as program:
            calls: Tuple[Callable[[], object], ...] = (
                lambda: elide.hunt(program, check="0x0 == 1"),
                lambda: elide.outcomes(program, "eax@0"),
                lambda: elide.run(program, in_turn=True),
                lambda: elide.replay(program, in_turn=True),
                lambda: elide.threads(program, budget=1),
            )
            for call in calls:
                with self.assertRaises(elide.Fault) as caught:
                    call()
                told = "bad.asm:1: fault 12 UnknownSymbol: jmp nowhere"
                self.assertEqual(str(caught.exception), told)

    def test_faults_of_options(self) -> None:
        nowhere = self.folder + "/nowhere/schedule"
        with elide.Program.from_source(COUNTER) as program:
            cases: Tuple[Tuple[int, Callable[[], object]], ...] = (
                (23, lambda: elide.hunt(program, cores=0, check="count == 2")),
                (23, lambda: elide.outcomes(program, "count", cores=65)),
                (22, lambda: elide.hunt(program, memory=4096, check="count == 2")),
                (24, lambda: elide.outcomes(program, "count", entry="count")),
                (81, lambda: elide.hunt(program, check="count == 2", record=nowhere)),
                (42, lambda: elide.run(program, steps="1")),
                (55, lambda: elide.threads(program, budget=0)),
                (80, lambda: elide.replay(program, schedule=nowhere)),
                (81, lambda: elide.threads(program, budget=1, record=nowhere)),
            )
            for number, call in cases:
                with self.subTest(number=number), self.assertRaises(elide.Fault) as caught:
                    call()
                self.assertEqual((caught.exception.number, caught.exception.line), (number, None))

    def test_misuses(self) -> None:
        with elide.Program.from_source(COUNTER) as program:
            cases: Tuple[Tuple[Optional[str], Callable[[], object]], ...] = (
                ("--check", lambda: elide.hunt(program, check="count ==")),
                ("--check", lambda: elide.hunt(program, check="nowhere == 1")),
                ("--stop", lambda: elide.hunt(program, stop="#XX")),
                ("--method", lambda: elide.hunt(program, check="count == 1", method="none")),
                ("--runs", lambda: elide.hunt(program, check="count == 1", runs="many")),
                ("--events", lambda: elide.outcomes(program, "count", events="earthquake")),
                ("--show", lambda: elide.outcomes(program, "exx@0")),
                ("--show", lambda: elide.outcomes(program, [])),
                ("--show", lambda: elide.run(program, steps="0", show="nowhere")),
                ("--dump", lambda: elide.replay(program, steps="0", dump="count")),
                ("--steps", lambda: elide.run(program, steps="a")),
                ("--steps", lambda: elide.replay(program)),
                ("--burst", lambda: elide.threads(program, budget=1, burst=0)),
            )
            for option, call in cases:
                with self.subTest(option=option), self.assertRaises(elide.Misuse) as caught:
                    call()
                self.assertEqual(caught.exception.option, option)
            with self.assertRaises(elide.Misuse):
                elide.hunt(program)
            with self.assertRaises(elide.Misuse) as caught:
                elide.hunt(program, check=["count == 1"] * 64)
            self.assertEqual(caught.exception.option, None)
            self.assertIn("more than 64 arguments", str(caught.exception))

    def test_a_file_that_is_not_there(self) -> None:
        path = self.folder + "/nowhere.asm"
        with self.assertRaises(elide.Fault) as caught:
            elide.outcomes(path, "eax@0")
        self.assertEqual(str(caught.exception), f"{path}: fault 80 Input")
        self.assertFalse(os.path.exists(path))


if __name__ == "__main__":
    unittest.main()
