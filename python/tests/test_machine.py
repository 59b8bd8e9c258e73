"""Sessions with the program."""

import os
import threading
import unittest
import warnings
from typing import Callable, Dict, Iterable, List, Tuple, Union

import elide

from .support import COUNTER, ENDLESS, LOST, Case, example, executable

# Core 0 commits while core 1 has the counter in its read set.
CONFLICT = "0 0 1 1 0 0 0 1".split()


class Steps(Case):
    """Steps, one at a time and many."""

    def test_steps_of_a_conflict(self) -> None:
        with elide.Program.from_source(COUNTER) as program, program.machine(cores=2) as machine:
            made = [machine.step(int(core)) for core in CONFLICT]
            words = "begun inside begun inside inside inside committed aborted".split()
            self.assertEqual([it.outcome for it in made], words)
            self.assertEqual([it.number for it in made], list(range(1, 9)))
            self.assertEqual(made[-1], elide.Step(8, 1, "aborted", status=6))
            self.assertEqual(str(made[-1]), "1 aborted 00000006")
            self.assertEqual(machine.schedule, CONFLICT)

    def test_events(self) -> None:
        with elide.Program.from_source(COUNTER) as program, program.machine() as machine:
            for word, letter, status in (
                ("interrupt", "i", 0),
                ("eviction", "e", 8),
                ("snoop", "s", 6),
            ):
                for event in (word, letter):
                    machine.step(0)
                    step = machine.step(0, event)
                    self.assertEqual(
                        (step.outcome, step.status, step.event), ("aborted", status, word)
                    )
                    self.assertEqual(machine.schedule, ["0", f"0{letter}"])
                    machine.back(2)
            with self.assertRaises(ValueError):
                machine.step(0, "earthquake")
            # Outside of a transaction an event aborts nothing; it is a pick all the same.
            self.assertEqual(machine.step(0, event="interrupt").outcome, "begun")
            self.assertEqual(machine.schedule, ["0i"])

    def test_pending_stores(self) -> None:
        with elide.Program.from_source(LOST) as program:
            with program.machine(store_buffer=1) as machine:
                words = [machine.step(0).outcome for _ in range(2)]
                self.assertEqual(words, ["loaded", "plain"])
                (store,) = machine.pending(0)
                self.assertEqual((store.core, store.value, store.size), (0, 1, 4))
                self.assertEqual(machine.value(store.address), 0)
                self.assertEqual(machine.step(0, "drain"), elide.Step(3, 0, "drained"))
                self.assertEqual(machine.schedule, ["0", "0", "0d"])
                self.assertEqual((machine.pending(0), machine.value("count")), ((), 1))
            ended = elide.run(program, steps="0 0 0 0", store_buffer=1, trace=True, show="count")
            outcomes = [it.outcome for it in ended.outcomes]
            self.assertEqual(outcomes, ["loaded", "plain", "drained", "stopped"])
            self.assertEqual(ended.values, {"count": 1})

    def test_stopped_and_idle(self) -> None:
        with elide.Program.from_source("start: hlt") as program, program.machine() as machine:
            self.assertEqual(machine.step(0), elide.Step(1, 0, "stopped", cause="HLT"))
            self.assertEqual(machine.step(0), elide.Step(2, 0, "idle"))
            self.assertEqual(machine.regs(0).state, "stop:HLT")
            self.assertEqual(machine.regs(0).stop, "HLT")

    def test_run_round_by_round(self) -> None:
        with elide.Program.from_source(LOST) as program, program.machine(cores=2) as machine:
            made = machine.run(3)
            self.assertEqual([it.outcome for it in made], ["loaded", "loaded", "plain"])
            self.assertEqual((len(made), made.end), (3, None))
            rest = machine.run(100)
            self.assertEqual((len(rest), rest.end), (3, "all stopped"))
            self.assertEqual(machine.schedule, ["0", "1", "0", "1", "0", "1"])
            self.assertEqual(machine.value("count"), 1)
            self.assertEqual(machine.run(1), elide.Steps((), "all stopped"))

    def test_breakpoints(self) -> None:
        with elide.Program.from_source(COUNTER) as program, program.machine(cores=2) as machine:
            machine.set_break("failed")
            machine.set_break("failed")
            made = machine.run(100)
            self.assertEqual((made.end, made.core, made.address), ("break", 0, 0x116))
            # Each core stands there once before it goes on.
            self.assertEqual(machine.regs(0).eip, 0x116)
            machine.clear_break("failed")
            self.assertEqual(machine.run(100).end, "all stopped")

    def test_along_steps(self) -> None:
        with elide.Program.from_source(COUNTER) as program:
            numbers = [int(it) for it in CONFLICT]
            cases: Tuple[Union[str, Iterable[Union[int, str]]], ...]
            cases = (CONFLICT, " ".join(CONFLICT), numbers, iter(CONFLICT))
            for number in range(len(cases)):
                steps = cases[number]
                with program.machine(cores=2, steps=steps) as machine:
                    self.assertEqual(len(machine.run(7)), 7)
                    made = machine.run(7)
                    self.assertEqual((len(made), made.end), (1, "the schedule has ended"))
                    self.assertEqual(machine.schedule, CONFLICT)

    def test_along_steps_with_events(self) -> None:
        # The second event aborts nothing, and is a pick all the same.
        steps = ["0", "0i", "0i", "1e", "1e"]
        with elide.Program.from_source(COUNTER) as program:
            with program.machine(cores=2, steps=steps) as machine:
                made = machine.run(5)
                words = [(it.outcome, it.event) for it in made]
                self.assertEqual(
                    words[:3], [("begun", None), ("aborted", "interrupt"), ("stopped", None)]
                )
                self.assertEqual(words[3:], [("begun", None), ("aborted", "eviction")])
                self.assertEqual(machine.schedule, steps)
                machine.back(3)
                self.assertEqual(machine.schedule, steps[:2])
                machine.run(2)
                self.assertEqual(machine.schedule, steps[:4])

    def test_along_a_file(self) -> None:
        path = self.file("schedule.txt", "schedule 3\n0*2 1*2 0*3\n1\n")
        with elide.Program.from_source(COUNTER) as program:
            with program.machine(cores=2, schedule=path) as machine:
                self.assertEqual(len(machine.run(100)), 8)
                self.assertEqual(machine.schedule, CONFLICT)

    def test_along_many_steps(self) -> None:
        steps = [str(it % 2) for it in range(60_000)]
        with elide.Program.from_source(ENDLESS) as program:
            with program.machine(cores=2, steps=steps) as machine:
                made = machine.run(100_000)
                self.assertEqual((len(made), made.end), (60_000, "the schedule has ended"))
                self.assertEqual(machine.schedule, steps)

    def test_along_a_drawn_schedule(self) -> None:
        with elide.Program.from_file(example("elision.asm")) as program:
            with program.machine(cores=4, random=7, limit=5000, events="1/16") as one:
                first = one.run(5000)
                self.assertEqual(len(first), 5000)
                self.assertIn("interrupt", {it.event for it in first})
                one.back(4000)
                self.assertEqual(one.run(4000).steps, first.steps[1000:])
            with program.machine(cores=4, steps=one.schedule) as other:
                self.assertEqual(other.run(5000).steps, first.steps)
            with program.machine(cores=4, in_turn=True) as machine:
                machine.run(8)
                self.assertEqual(machine.schedule, list("01230123"))

    def test_no_steps(self) -> None:
        with elide.Program.from_source(LOST) as program, program.machine(steps=[]) as machine:
            self.assertEqual(machine.run(1), elide.Steps((), "the schedule has ended"))
            self.assertEqual(machine.schedule, [])

    def test_the_limit(self) -> None:
        with elide.Program.from_source(ENDLESS) as program, program.machine(cores=2) as machine:
            for _ in range(10):
                self.assertEqual(len(machine.run(100_000)), 100_000)
            self.assertEqual(machine.run(1), elide.Steps((), "limit"))
            with self.assertRaises(elide.Fault) as caught:
                machine.step(0)
            self.assertEqual((caught.exception.number, caught.exception.name), (74, "LimitReached"))
            self.assertEqual(machine.back(1), 999_999)
            made = machine.run(2)
            self.assertEqual((len(made), made.end), (1, "limit"))


class Looks(Case):
    """What a machine tells."""

    def test_registers(self) -> None:
        with elide.Program.from_source(COUNTER) as program, program.machine(cores=2) as machine:
            start = machine.regs(1)
            self.assertEqual(
                (start.core, start.state, start.depth, start.stop), (1, "run", 0, None)
            )
            self.assertEqual((start.ecx, start.esp, start.eip, start.flags), (2, 0xF000, 0x100, ()))
            machine.run(4)
            self.assertEqual((machine.regs(0).state, machine.regs(0).depth), ("tx", 1))
            machine.run(5)
            self.assertEqual((machine.regs(1).state, machine.regs(1).depth), ("condemned", None))
            with self.assertRaises(AttributeError):
                start.eax = 1  # type: ignore[misc]

    def test_flags(self) -> None:
        source = "mov eax, -1\nadd eax, 1\nmov eax, 0x7fffffff\nadd eax, 1\n"
        with elide.Program.from_source(source) as program, program.machine() as machine:
            machine.run(2)
            self.assertEqual(machine.regs(0).flags, ("CF", "PF", "AF", "ZF"))
            machine.run(2)
            self.assertEqual(machine.regs(0).flags, ("PF", "AF", "SF", "OF"))
            self.assertEqual(machine.regs(0).eax, 0x80000000)

    def test_midway(self) -> None:
        with elide.Program.from_source(LOST) as program, program.machine() as machine:
            machine.step(0)
            self.assertEqual((machine.regs(0).state, machine.regs(0).depth), ("mid", 0))

    def test_memory(self) -> None:
        source = """\
hlt
section .data
table: dd 1, 2, 3
bytes: db 'hello'
many: resb 1000
last: db 7
"""
        with elide.Program.from_source(source) as program, program.machine() as machine:
            self.assertEqual(machine.memory("table", 4), b"\1\0\0\0")
            self.assertEqual(machine.memory("table+4", 8), b"\2\0\0\0\3\0\0\0")
            self.assertEqual(machine.memory(b"bytes", 5), b"hello")
            self.assertEqual(machine.memory("bytes-4", 4), b"\3\0\0\0")
            self.assertEqual(machine.memory(0x140, 4), b"\1\0\0\0")
            self.assertEqual(machine.memory("0x140", 1), b"\1")
            self.assertEqual(machine.value("table+8"), 3)
            for count in (1, 15, 16, 17, 255, 256, 257, 512, 600):
                self.assertEqual(
                    machine.memory("bytes", count), b"hello".ljust(count, b"\0")[:count]
                )
            self.assertEqual(machine.memory("many", 1001)[-1:], b"\7")
            self.assertEqual(len(machine.memory(0, 65536)), 65536)

    def test_sets(self) -> None:
        with elide.Program.from_source(COUNTER) as program, program.machine() as machine:
            self.assertEqual(machine.sets(0), elide.Sets(0, "run", 0, (), ()))
            machine.run(4)
            self.assertEqual(machine.sets(0), elide.Sets(0, "tx", 1, (5,), (5,)))

    def test_many_lines(self) -> None:
        source = "xbegin out\nmov ecx, 0\nagain: mov eax, [ecx]\nadd ecx, 64\njmp again\nout: hlt\n"
        with elide.Program.from_source(source) as program:
            with program.machine(memory=1 << 20, reads=4096) as machine:
                machine.run(10_000)
                self.assertEqual(machine.sets(0).reads, tuple(range(3333)))

    def test_why(self) -> None:
        with elide.Program.from_source(COUNTER) as program, program.machine(cores=2) as machine:
            self.assertIsNone(machine.why(1))
            machine.run(9)
            text = "conflict line 5: written at step 9 by core 0 at 00000113; begun at step 2"
            wanted = elide.Reason(1, text, "conflict", 5, "written", 9, 0, 0x113, 2)
            self.assertEqual(machine.why(1), wanted)
            self.assertEqual(str(wanted), text)
        source = "xbegin out\nxabort 0xff\nout: hlt\n"
        with elide.Program.from_source(source) as program, program.machine() as machine:
            machine.step(0)
            reason = machine.why(0)
            assert reason is not None
            self.assertEqual((reason.cause, reason.line, reason.begun), ("xabort", None, 1))

    def test_back(self) -> None:
        with elide.Program.from_source(COUNTER) as program, program.machine(cores=2) as machine:
            machine.run(9)
            self.assertEqual(machine.back(4), 5)
            self.assertEqual(machine.schedule, ["0", "1", "0", "1", "0"])
            self.assertEqual(machine.step(1).number, 6)

    def test_listing(self) -> None:
        with elide.Program.from_source(COUNTER) as program, program.machine() as machine:
            rows = machine.listing("start", 2)
            self.assertEqual(rows[0].split("  ")[0], "00000100")
            self.assertTrue(rows[0].endswith("xbegin 0x116"))
            self.assertEqual(len(rows), 2)
            self.assertEqual(len(machine.listing("failed", 9)), 1)

    def test_options(self) -> None:
        with elide.Program.from_source(COUNTER) as program:
            entry = ("start", "failed")
            with program.machine(2, 12288, entry=entry, reads=1, writes=1) as machine:
                self.assertEqual([machine.regs(it).eip for it in (0, 1)], [0x100, 0x116])
                self.assertEqual(machine.regs(0).esp, 12288)
            with program.machine(cores=2, entry=0x116) as machine:
                self.assertEqual(machine.regs(1).eip, 0x116)

    def test_names_and_texts(self) -> None:
        with elide.Program.from_source(COUNTER, name="counter.asm") as program:
            self.assertEqual(repr(program), "<elide.Program counter.asm>")
            with program.machine() as machine:
                machine.run(2)
                self.assertEqual(repr(machine), "<elide.Machine counter.asm, 2 steps>")
            self.assertEqual(repr(machine), "<elide.Machine counter.asm, closed>")


class Refusals(Case):
    """A fault in each place of a session, which goes on behind it."""

    def test_each_refusal(self) -> None:
        def fill(machine: elide.Machine) -> None:
            for it in range(65):
                machine.set_break(0x100 + it)

        Call = Callable[[elide.Machine], object]
        cases: List[Tuple[int, str, Call]] = [
            (72, "NoSuchCore", lambda it: it.step(2)),
            (71, "BadArgument", lambda it: it.step(-1)),
            (71, "BadArgument", lambda it: it.step(300, "interrupt")),
            (72, "NoSuchCore", lambda it: it.regs(2)),
            (72, "NoSuchCore", lambda it: it.sets(64)),
            (72, "NoSuchCore", lambda it: it.why(2)),
            (73, "OutOfRange", lambda it: it.run(0)),
            (73, "OutOfRange", lambda it: it.run(100_001)),
            (71, "BadArgument", lambda it: it.run(-1)),
            (73, "OutOfRange", lambda it: it.back(0)),
            (73, "OutOfRange", lambda it: it.back(5)),
            (73, "OutOfRange", lambda it: it.memory(65536, 1)),
            (73, "OutOfRange", lambda it: it.memory(65000, 1000)),
            (73, "OutOfRange", lambda it: it.memory("count", 0)),
            (71, "BadArgument", lambda it: it.memory("cuont", 4)),
            (71, "BadArgument", lambda it: it.memory(-4, 4)),
            (73, "OutOfRange", lambda it: it.memory("start-4096", 4)),
            (73, "OutOfRange", lambda it: it.listing("count", 1)),
            (73, "OutOfRange", lambda it: it.listing("start", 65)),
            (71, "BadArgument", lambda it: it.listing("nowhere", 1)),
            (71, "BadArgument", lambda it: it.set_break("nowhere")),
            (73, "OutOfRange", lambda it: it.clear_break(1 << 32)),
            (75, "TooManyBreakpoints", fill),
        ]
        with elide.Program.from_source(COUNTER) as program, program.machine(cores=2) as machine:
            machine.run(4)
            for number, name, call in cases:
                with self.subTest(number=number, name=name):
                    with self.assertRaises(elide.Fault) as caught:
                        call(machine)
                    fault = caught.exception
                    self.assertEqual((fault.number, fault.name, fault.line), (number, name, None))
                    self.assertIn(f"fault {number} {name}: ", str(fault))
                    # What the next answer is has not moved.
                    self.assertEqual(machine.regs(1).core, 1)
            self.assertEqual(machine.schedule, ["0", "1", "0", "1"])

    def test_hostile_addresses(self) -> None:
        """What no word of a command can say is refused, and starts no command of its own."""
        words = ["", " ", "count 4", "count\nquit", "count\r", "\n", "a b", "x" * 300, "é" * 200]
        with elide.Program.from_source(COUNTER) as program, program.machine() as machine:
            for word in words:
                with self.subTest(word=word), self.assertRaises(elide.Fault) as caught:
                    machine.memory(word, 4)
                self.assertIn(caught.exception.number, (70, 71))
                self.assertTrue(str(caught.exception).isprintable())
            for word in ("quit", "error", "\0", "\t", "-", "+", "count+", "0x", "\x1b[31m", "%s"):
                with self.subTest(word=word), self.assertRaises(elide.Fault) as caught:
                    machine.memory(word, 4)
                self.assertEqual(caught.exception.number, 71)
            self.assertEqual(machine.value("count"), 0)

    def test_hostile_symbols(self) -> None:
        """Symbols of an executable, whose names can have any bytes."""
        plain = [
            b"quit",
            b"mem",
            b"error",
            b"ok",
            b"bye",
            b"\x1b[31m",
            b"\xff\xfe",
            "zähler".encode(),
        ]
        plain += [
            b"a+b",
            b"-",
            b"%s%n",
            b"$(id)",
            b"`id`",
            b"\t",
            b"end-of-answer",
            b"x" * 240,
            b"=",
        ]
        never = [b"a b", b"x\ny", b"\n", b"count\r", b"error 70", b" "]
        names = plain + never
        # Symbol K stands at byte K behind the code, which is HLT and 64 bytes of data.
        program = self.folder + "/hostile.elf"
        with open(program, "wb") as file:
            file.write(executable([(name, at) for at, name in enumerate(names)], bytes(range(64))))
        with elide.Program.from_file(program) as found, found.machine() as machine:
            for at, name in enumerate(plain):
                with self.subTest(name=name):
                    self.assertEqual(machine.memory(name, 1), bytes([at]))
            text = "zähler"
            self.assertEqual(machine.memory(text, 1), bytes([plain.index(text.encode())]))
            for name in never:
                with self.subTest(name=name), self.assertRaises(elide.Fault) as caught:
                    machine.memory(name, 1)
                self.assertEqual(caught.exception.number, 71)
            self.assertEqual(machine.memory("quit", 1), b"\0")


class Starts(Case):
    """Machines that do not start, and what is told then."""

    def refused(self, program: elide.Program, **options: object) -> elide.Error:
        with self.assertRaises(elide.Error) as caught:
            program.machine(**options)  # type: ignore[arg-type]
        return caught.exception

    def test_a_fault_of_a_source(self) -> None:
        source = "start: nop\n       mov eax, [cuont]\nsection .data\ncount: dd 0\n"
        with elide.Program.from_source(source, name="typo.asm") as program:
            fault = self.refused(program)
            assert isinstance(fault, elide.Fault)
            self.assertEqual((fault.number, fault.name, fault.line), (12, "UnknownSymbol", 2))
            self.assertEqual(
                (fault.file, fault.text), ("typo.asm", "fault 12 UnknownSymbol line 2")
            )
            self.assertEqual(str(fault), "typo.asm:2: fault 12 UnknownSymbol: mov eax, [cuont]")

    def test_a_fault_with_warnings(self) -> None:
        source = "xned\nmov eax, [cuont]\n"
        with elide.Program.from_source(source) as program:
            fault = self.refused(program)
            assert isinstance(fault, elide.Fault)
            self.assertEqual(len(fault.warnings), 1)
            self.assertTrue(fault.warnings[0].startswith("source.asm:1: label 'xned'"))
            self.assertIn(fault.warnings[0], str(fault))

    def test_a_warning(self) -> None:
        with elide.Program.from_source("xned\nhlt\n") as program:
            with warnings.catch_warnings(record=True) as caught:
                warnings.simplefilter("always")
                with program.machine() as machine:
                    machine.step(0)
            self.assertEqual([it.category for it in caught], [elide.SourceWarning])
            self.assertTrue(str(caught[0].message).startswith("source.asm:1: label 'xned'"))
            self.assertEqual(caught[0].filename, __file__)
            with warnings.catch_warnings():
                warnings.simplefilter("error")
                with self.assertRaises(elide.SourceWarning):
                    program.machine()

    def test_a_fault_of_an_image(self) -> None:
        with elide.Program.from_source("image 1 100 1\nf4\nxx\n", name="bad.img") as program:
            fault = self.refused(program)
            assert isinstance(fault, elide.Fault)
            self.assertEqual((fault.number, fault.line, fault.file), (27, 3, "bad.img"))

    def test_a_fault_of_a_schedule(self) -> None:
        path = self.file("schedule.txt", "schedule 3\n0 1\n0 x\n")
        with elide.Program.from_source(COUNTER) as program:
            fault = self.refused(program, cores=2, schedule=path)
            assert isinstance(fault, elide.Fault)
            self.assertEqual((fault.number, fault.name, fault.line), (52, "BadSchedule", 3))
            self.assertEqual((fault.file, fault.quoted), (path, None))
            fault = self.refused(program, cores=2, steps=["0"] * 40_000 + ["x"])
            assert isinstance(fault, elide.Fault)
            self.assertEqual((fault.number, fault.line, fault.file), (52, 2502, "steps"))
            misuse = self.refused(program, cores=2, steps=["0*2"] * 40_000)
            assert isinstance(misuse, elide.Misuse)
            self.assertEqual(misuse.option, "--steps")
            fault = self.refused(program, cores=2, steps="0 2")
            assert isinstance(fault, elide.Fault)
            self.assertEqual((fault.number, fault.name), (42, "NoSuchCore"))

    def test_faults_of_the_machine(self) -> None:
        with elide.Program.from_source(COUNTER) as program:
            cases: Tuple[Tuple[int, Dict[str, object]], ...] = (
                (23, {"cores": 65}),
                (22, {"memory": 4096}),
                (24, {"entry": "count"}),
                (40, {"reads": 0}),
            )
            for number, options in cases:
                with self.subTest(number=number):
                    fault = self.refused(program, **options)
                    assert isinstance(fault, elide.Fault)
                    self.assertEqual((fault.number, fault.file), (number, "source.asm"))

    def test_misuses(self) -> None:
        with elide.Program.from_source(COUNTER) as program:
            cases: Tuple[Tuple[str, Dict[str, object]], ...] = (
                ("--entry", {"entry": "nowhere"}),
                ("--mem", {"memory": -1}),
                ("--steps", {"steps": "0 x"}),
                ("--events", {"events": "1/2"}),
                ("--seed", {"random": 1, "seed": 1}),
            )
            for option, options in cases:
                with self.subTest(option=option):
                    misuse = self.refused(program, **options)
                    assert isinstance(misuse, elide.Misuse)
                    self.assertEqual(misuse.option, option)
                    self.assertIn(option, str(misuse))

    def test_files_that_are_not_there(self) -> None:
        with self.assertRaises(FileNotFoundError) as caught:
            elide.Program.from_file(self.folder + "/nowhere.asm")
        self.assertIn("nowhere.asm", str(caught.exception))
        with self.assertRaises(IsADirectoryError):
            elide.Program.from_file(self.folder)
        path = self.file("gone.asm", COUNTER)
        program = elide.Program.from_file(path)
        os.unlink(path)
        fault = self.refused(program)
        assert isinstance(fault, elide.Fault)
        self.assertEqual((fault.number, fault.name, fault.file), (80, "Input", path))
        with elide.Program.from_source(COUNTER) as source:
            nowhere = self.folder + "/nowhere.txt"
            fault = self.refused(source, schedule=nowhere)
            assert isinstance(fault, elide.Fault)
            self.assertEqual((fault.number, fault.file), (80, nowhere))

    def test_names_of_sources(self) -> None:
        for name in ("", ".", "..", "a/b", "/a", "a\0b"):
            with self.subTest(name=name), self.assertRaises(ValueError):
                elide.Program.from_source(COUNTER, name=name)
        for name in ("-x.asm", "a b.asm", "ä.asm", "$(id).asm", "--help"):
            with self.subTest(name=name), elide.Program.from_source(COUNTER, name=name) as program:
                with program.machine() as machine:
                    self.assertEqual(machine.step(0).outcome, "begun")

    def test_messages_drive_no_terminal(self) -> None:
        name = "\x1b[31m\n.asm"
        with elide.Program.from_source("jmp nowhere \x1b[31m", name=name) as program:
            fault = self.refused(program)
            misuse = self.refused(program, memory="\x1b[31m")
        with elide.Program.from_source("xned\nhlt", name=name) as program:
            with self.assertWarns(elide.SourceWarning) as caught, program.machine() as machine:
                with self.assertRaises(elide.Fault) as refused:
                    machine.memory("\x1b[31m", 4)
        for it in (fault, caught.warning, refused.exception, *str(misuse).split("\n")):
            self.assertTrue(str(it).isprintable(), ascii(str(it)))

    def test_a_path_that_begins_with_a_dash(self) -> None:
        self.file("-x.asm", COUNTER)
        before = os.getcwd()
        os.chdir(self.folder)
        try:
            with elide.Program.from_file("-x.asm") as program, program.machine() as machine:
                self.assertEqual(machine.step(0).outcome, "begun")
        finally:
            os.chdir(before)


class Threads(Case):
    """Threads of Python."""

    def test_a_session_a_thread(self) -> None:
        found: List[Tuple[int, int]] = []

        def work(number: int) -> None:
            with elide.Program.from_source(COUNTER) as program:
                with program.machine(cores=number + 1) as machine:
                    made = machine.run(10_000)
                    assert made.end == "all stopped"
                    for _ in range(100):
                        machine.regs(number)
                    found.append((number, machine.regs(number).core))

        self.together([lambda it=it: work(it) for it in range(8)])  # type: ignore[misc]
        self.assertEqual(sorted(found), [(it, it) for it in range(8)])

    def test_threads_that_share_a_machine(self) -> None:
        with elide.Program.from_source(ENDLESS) as program, program.machine(cores=8) as machine:

            def work(core: int) -> None:
                for _ in range(100):
                    assert machine.step(core).core == core
                    assert machine.regs(core).core == core

            self.together([lambda it=it: work(it) for it in range(8)])  # type: ignore[misc]
            self.assertEqual(len(machine.schedule), 800)

    def together(self, works: List[Callable[[], None]]) -> None:
        failed: List[BaseException] = []

        def guarded(work: Callable[[], None]) -> None:
            try:
                work()
            except BaseException as error:  # Whatever it is, it is told below.
                failed.append(error)

        started = [threading.Thread(target=guarded, args=(work,)) for work in works]
        for it in started:
            it.start()
        for it in started:
            it.join()
        self.assertEqual(failed, [])


if __name__ == "__main__":
    unittest.main()
