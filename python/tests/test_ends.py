"""Programs that end early, that are no elide, or that are broken off: no call hangs, nothing is
left.

What the program itself does not do is done by a small program of its own here.
"""

import os
import pickle
import signal
import subprocess
import sys
import textwrap
import threading
import time
import unittest
from typing import Callable, List, Tuple

import elide

from .support import COUNTER, ENDLESS, PYTHON, Case, children, environment, is_running, wait_for_end

# A program that begins a session as elide does, and answers the next command by what stands here.
SESSION = """\
import os, signal, sys, time
def say(text):
    sys.stdout.write(text)
    sys.stdout.flush()
assert sys.stdin.readline() == "end-of-answer\\n"
say("error 70\\n")
sys.stdin.readline()
"""


class Killed(Case):
    """The program's process is killed."""

    def test_between_two_calls(self) -> None:
        with elide.Program.from_source(COUNTER) as program, program.machine() as machine:
            machine.run(3)
            os.kill(machine.pid, signal.SIGKILL)
            for _ in range(2):
                with self.assertRaises(elide.ProgramEnded) as caught:
                    machine.step(0)
                self.assertEqual(caught.exception.status, -signal.SIGKILL)
                self.assertIn(
                    "elide debug source.asm: step 0: was ended by SIGKILL", str(caught.exception)
                )
            self.assertEqual(machine.schedule, ["0", "0", "0"])
            with self.assertRaises(elide.ProgramEnded):
                machine.run(1)

    def test_within_a_call(self) -> None:
        with elide.Program.from_source(ENDLESS) as program, program.machine() as machine:
            os.kill(machine.pid, signal.SIGSTOP)
            caught: List[BaseException] = []

            def work() -> None:
                try:
                    machine.run(100_000)
                except elide.ProgramEnded as error:
                    caught.append(error)

            thread = threading.Thread(target=work)
            thread.start()
            time.sleep(0.3)
            self.assertTrue(thread.is_alive())
            os.kill(machine.pid, signal.SIGKILL)
            thread.join(10)
            self.assertFalse(thread.is_alive())
            self.assertEqual([it.args[0] for it in caught], [-signal.SIGKILL])

    def test_a_command(self) -> None:
        path = self.fake("import os, signal\nos.kill(os.getpid(), signal.SIGTERM)")
        with elide.Program.from_source(COUNTER, elide=path) as program:
            with self.assertRaises(elide.ProgramEnded) as caught:
                elide.hunt(program, check="count == 1")
            self.assertEqual(caught.exception.status, -signal.SIGTERM)
            self.assertIn("elide hunt source.asm: was ended by SIGTERM", str(caught.exception))

    def test_closed_behind_its_end(self) -> None:
        with elide.Program.from_source(COUNTER) as program:
            machine = program.machine()
            os.kill(machine.pid, signal.SIGKILL)
            machine.close()
            machine.close()


class EndsEarly(Case):
    """A program that ends, by itself, before its answer is whole."""

    def machine(self, body: str) -> elide.Machine:
        path = self.fake(SESSION + textwrap.dedent(body))
        program = elide.Program.from_source(COUNTER, elide=path)
        self.addCleanup(program.close)
        machine = program.machine()
        self.addCleanup(machine.close)
        return machine

    def tearDown(self) -> None:
        self.doCleanups()
        super().tearDown()

    def test_at_its_start(self) -> None:
        for body, kind in (
            ("", elide.ProgramEnded),
            ("raise SystemExit(1)", elide.ProgramEnded),
            ("raise SystemExit(2)", elide.Misuse),
            ("raise SystemExit(7)", elide.ProgramEnded),
            ("import os; os.close(1); os.close(2); os._exit(0)", elide.ProgramEnded),
            ("import sys; sys.exit('fault 999 New line 3')", elide.Fault),
            ("import sys; sys.exit('fault 12')", elide.ProgramEnded),
            ("print('error 70 ')", elide.ProgramEnded),
            ("print('error 7', end='')", elide.ProgramEnded),
        ):
            with self.subTest(body=body):
                path = self.fake(body)
                with elide.Program.from_source(COUNTER, elide=path) as program:
                    with self.assertRaises(kind):
                        program.machine()

    def test_what_it_wrote_is_told(self) -> None:
        machine = self.machine("say('core 0 ru'); sys.stderr.write('out of luck\\n'); sys.exit(9)")
        with self.assertRaises(elide.ProgramEnded) as caught:
            machine.regs(0)
        ended = caught.exception
        self.assertEqual((ended.status, ended.text), (9, "core 0 ru\nout of luck"))
        self.assertEqual(
            str(ended),
            "elide debug source.asm: regs 0: ended with status 9 before the answer was whole;"
            " it had written: core 0 ru\\nout of luck",
        )

    def test_within_a_run(self) -> None:
        """The steps that were told are kept, of which the last is told half."""
        machine = self.machine("say('0 begun\\n1 plain\\n0 aborted 00000000'); sys.exit(1)")
        with self.assertRaises(elide.ProgramEnded):
            machine.run(5)
        self.assertEqual(machine.schedule, ["0", "1"])

    def test_a_fault_on_the_way(self) -> None:
        machine = self.machine("sys.exit('fault 78 NoMemory')")
        for _ in range(2):
            with self.assertRaises(elide.Fault) as caught:
                machine.back(1)
            self.assertEqual((caught.exception.number, caught.exception.name), (78, "NoMemory"))

    def test_pipes_that_another_holds(self) -> None:
        """Its child goes on and holds both pipes: the end of the program is what counts."""
        for status in (0, 9):
            machine = self.machine(
                f"""
                if os.fork() == 0:
                    time.sleep(100)
                    os._exit(0)
                os._exit({status})
                """
            )
            begun = time.monotonic()
            with self.assertRaises(elide.ProgramEnded) as caught:
                machine.step(0)
            self.assertEqual(caught.exception.status, status)
            self.assertLess(time.monotonic() - begun, 5)

    def test_output_that_is_closed(self) -> None:
        """It goes on without its output, and is ended."""
        machine = self.machine("os.close(1); time.sleep(100)")
        with self.assertRaises(elide.ProgramEnded) as caught:
            machine.step(0)
        self.assertEqual(caught.exception.status, -signal.SIGKILL)
        self.assertFalse(is_running(machine.pid))

    def test_it_does_not_end_at_the_end_of_its_input(self) -> None:
        machine = self.machine("say('ok\\nerror 70\\n'); os.close(1); os.close(2); time.sleep(100)")
        machine.set_break(0)
        machine.close()
        self.assertFalse(is_running(machine.pid))


class NoElide(Case):
    """Programs that answer otherwise than elide."""

    def test_sessions(self) -> None:
        for body in (
            "print('hello\\nerror 70', flush=True); input()",
            "while True: print('y' * 1000)",
            "import sys\nwhile True: sys.stdout.write('y' * 1000)",
            "import sys; sys.stdout.buffer.write(bytes(range(256)) * 9000); input()",
        ):
            with self.subTest(body=body):
                path = self.fake(body)
                with elide.Program.from_source(COUNTER, elide=path) as program:
                    with self.assertRaises(elide.BadAnswer):
                        program.machine()

    def test_answers(self) -> None:
        cases: Tuple[Tuple[str, Callable[[elide.Machine], object]], ...] = (
            ("0 begun\n0 begun\n", lambda it: it.step(0)),
            ("", lambda it: it.step(0)),
            ("0 sprung\n", lambda it: it.step(0)),
            ("0 begun\nbreak 0 00000100\n0 begun\n", lambda it: it.run(5)),
            ("0 begun\n\n", lambda it: it.run(5)),
            ("core 0 run eax=0\n", lambda it: it.regs(0)),
            ("sets 0 tx1 reads 5\n", lambda it: it.sets(0)),
            ("", lambda it: it.memory(0, 4)),
            ("00000000 010000\n", lambda it: it.memory(0, 4)),
            ("00000000 0100000000\n", lambda it: it.memory(0, 4)),
            ("00000000 0x\n", lambda it: it.memory(0, 4)),
            ("at step many\n", lambda it: it.back(1)),
            ("well\n", lambda it: it.set_break(0)),
            ("x" * (1 << 21) + "\n", lambda it: it.listing(0, 1)),
        )
        for answer, call in cases:
            with self.subTest(answer=answer[:80]):
                path = self.fake(f"{SESSION}say({answer!r} + 'error 70\\n')\ntime.sleep(100)")
                with elide.Program.from_source(COUNTER, elide=path) as program:
                    with program.machine() as machine:
                        for _ in range(2):
                            with self.assertRaises(elide.BadAnswer):
                                call(machine)
                        self.assertFalse(is_running(machine.pid))

    def test_commands(self) -> None:
        whole = (
            '{"format":1,"command":"outcomes","show":[],"outcomes":[],"violations":[],"stops":[]'
            ',"stuck":null,"states":1,"whole":true'
            ',"status":0}'
        )
        for text in (
            "",
            "hello",
            whole[:-1],
            whole.replace('"format":1', '"format":2'),
            whole.replace('"command":"outcomes"', '"command":"hunt"'),
            whole.replace('"status":0', '"status":3'),
            whole.replace('"status":0', '"status":false'),
            whole.replace("[]", "{}"),
            whole.replace('"outcomes":[]', '"outcomes":[7]'),
            whole.replace("true", "1"),
            whole + whole,
            "[]",
            "null",
        ):
            with self.subTest(text=text):
                path = self.fake(f"print({text!r})")
                with elide.Program.from_source(COUNTER, elide=path) as program:
                    with self.assertRaises(elide.BadAnswer):
                        elide.outcomes(program, "")
        path = self.fake(f"print({whole!r})")
        with elide.Program.from_source(COUNTER, elide=path) as program:
            found = elide.outcomes(program, "")
            self.assertEqual(found, elide.Outcomes((), (), (), (), None, 1, True))

    def test_a_replay_that_differs(self) -> None:
        """Its status is that of a fault, and its object is whole."""
        whole = (
            '{"format":1,"command":"replay","cores":[],"dump":[],"show":[],"agree":false'
            ',"status":1}'
        )
        path = self.fake(f"print({whole!r}); raise SystemExit(1)")
        with elide.Program.from_source(COUNTER, elide=path) as program:
            self.assertEqual(elide.replay(program, steps=""), elide.Replay((), (), (), False))
        for text, status in ((whole[:-1], 1), (whole, 9)):
            path = self.fake(f"print({text!r}); raise SystemExit({status})")
            with elide.Program.from_source(COUNTER, elide=path) as program:
                with self.assertRaises(elide.ProgramEnded):
                    elide.replay(program, steps="")

    def test_a_command_that_never_ends(self) -> None:
        path = self.fake("while True: print('y')")
        with elide.Program.from_source(COUNTER, elide=path) as program:
            with self.assertRaises(elide.BadAnswer):
                elide.hunt(program, check="count == 1")

    def test_much_on_standard_error(self) -> None:
        """Neither output fills up while the other is waited for, and no byte breaks a message."""
        flood = "import sys; sys.stderr.buffer.write(b'\\xff\\x1b[31m ' * 300_000 + b'\\n'); "
        path = self.fake(flood + "print('{\"format\":', end='')\nsys.stdout.flush(); sys.exit(5)")
        with elide.Program.from_source(COUNTER, elide=path) as program:
            with self.assertRaises(elide.ProgramEnded) as caught:
                elide.hunt(program, check="count == 1")
            self.assertGreater(len(caught.exception.text), 1_000_000)
            self.assertTrue(str(caught.exception).isprintable())
            self.assertLess(len(str(caught.exception)), 3000)
        path = self.fake(flood + SESSION + "say('0 begun\\nerror 70\\n'); sys.stdin.readline()")
        with elide.Program.from_source(COUNTER, elide=path) as program:
            with self.assertLogs("elide") as logged, program.machine() as machine:
                self.assertEqual(machine.step(0).outcome, "begun")
            self.assertIn("\ufffd", logged.output[0])


class BrokenOff(Case):
    """Calls that take too long, or that Ctrl-C ends."""

    def test_time(self) -> None:
        with elide.Program.from_source(COUNTER) as program:
            with program.machine(timeout=0.2) as machine:
                machine.step(0)
                os.kill(machine.pid, signal.SIGSTOP)
                with self.assertRaises(TimeoutError):
                    machine.step(0)
                self.assertFalse(is_running(machine.pid))
                with self.assertRaises(elide.ProgramEnded):
                    machine.step(0)
                self.assertEqual(machine.schedule, ["0"])
        path = self.fake("import time; time.sleep(100)")
        with elide.Program.from_source(COUNTER, elide=path) as program:
            begun = time.monotonic()
            with self.assertRaises(TimeoutError):
                program.machine(timeout=0.2)
            with self.assertRaises(TimeoutError):
                elide.hunt(program, check="count == 1", timeout=0.2)
            self.assertLess(time.monotonic() - begun, 5)

    def interrupted(self, body: str) -> None:
        """Has Python do this, which says the number of the program's process when it waits, and
        sends it what Ctrl-C does: it ends by KeyboardInterrupt, and the process and its own are
        gone."""
        source = "import elide, os, signal, sys, time\n" + textwrap.dedent(body)
        words = [sys.executable, "-W", "error", "-c", source]
        with subprocess.Popen(
            words, stdout=subprocess.PIPE, stderr=subprocess.PIPE, env=environment(), text=True
        ) as python:
            assert python.stdout is not None and python.stderr is not None
            pids = [int(word) for word in python.stdout.readline().split()]
            self.assertTrue(pids)
            time.sleep(0.2)
            python.send_signal(signal.SIGINT)
            said = python.stderr.read()
        self.assertTrue(said.rstrip().endswith("KeyboardInterrupt"), said)
        self.assertNotIn("Warning", said)
        self.assertNotIn("ignored", said)
        for pid in pids:
            self.assertTrue(wait_for_end(pid), f"{pid} goes on")

    def test_ctrl_c_in_a_session(self) -> None:
        call = "os.kill(m.pid, signal.SIGSTOP); print(m.pid, flush=True); m.step(0)"
        opened = f"p = elide.Program.from_source({COUNTER!r}); m = p.machine(); "
        self.interrupted(opened + call)
        self.interrupted(f"{opened}\nwith p, m: {call}")
        # Between two calls, with a session that nobody has closed.
        self.interrupted(opened + "print(m.pid, flush=True); time.sleep(100)")

    def test_ctrl_c_in_a_command(self) -> None:
        path = self.fake(
            """
            import os, sys, time
            other = os.fork()
            if other:
                with open(os.path.join(os.path.dirname(sys.argv[0]), "pids"), "w") as file:
                    file.write(f"{os.getpid()} {other}\\n")
            time.sleep(100)
            """
        )
        self.interrupted(
            f"""
            import threading
            def tell():
                while not os.path.exists({self.folder!r} + "/pids"):
                    time.sleep(0.01)
                time.sleep(0.1)
                print(open({self.folder!r} + "/pids").read(), flush=True)
            threading.Thread(target=tell, daemon=True).start()
            elide.hunt(elide.Program.from_source("hlt", elide={path!r}), check="count == 1")
            """.replace(
                "open(", "__import__('pathlib').Path("
            ).replace(
                ".read()", ".read_text()"
            )
        )

    def test_ctrl_c_at_any_moment(self) -> None:
        """Also while a process starts: none is left, and no file of a program."""
        source = f"""\
import glob, os, random, signal, sys, tempfile, time
sys.path.insert(0, {PYTHON!r})
import elide
from tests.support import children

def interrupt(*_):
    raise KeyboardInterrupt

def work(number):
    with elide.Program.from_source({ENDLESS!r}) as program:
        for _ in range(50):
            if number % 2:
                elide.hunt(program, 2, stop="#GP", runs=3, limit=3000)
            else:
                with program.machine() as machine:
                    machine.run(100)

signal.signal(signal.SIGALRM, interrupt)
# Python tries the folder for temporary files once, by a file that Ctrl-C would leave there.
tempfile.gettempdir()
random.seed(1)
for number in range(40):
    try:
        signal.setitimer(signal.ITIMER_REAL, 0.0005 + 0.02 * random.random())
        work(number)
    except KeyboardInterrupt:
        pass
    signal.setitimer(signal.ITIMER_REAL, 0)
    last = time.monotonic() + 10
    while children():
        assert time.monotonic() < last, children()
        time.sleep(0.01)
"""
        words = [sys.executable, "-c", source]
        ran = subprocess.run(words, env=environment(), capture_output=True, text=True, check=False)
        self.assertEqual(ran.returncode, 0, ran.stderr)

    def test_ctrl_c_in_a_long_hunt(self) -> None:
        self.interrupted(
            f"""
            import threading
            sys.path.insert(0, {PYTHON!r})
            from tests.support import children
            def tell():
                while not children():
                    time.sleep(0.01)
                print(*children(), flush=True)
            threading.Thread(target=tell, daemon=True).start()
            elide.hunt(elide.Program.from_source({ENDLESS!r}), 2, stop="#GP", runs=10**6)
            """
        )


class Closed(Case):
    """What is closed, and what nobody closes."""

    def test_twice(self) -> None:
        with elide.Program.from_source(COUNTER) as program:
            machine = program.machine()
            with machine:
                with machine:
                    machine.step(0)
                with self.assertRaises(ValueError):
                    machine.step(0)
            machine.close()
            with self.assertRaises(ValueError):
                with machine:
                    pass
            self.assertEqual(machine.schedule, ["0"])
        program.close()
        calls: Tuple[Callable[[], object], ...] = (
            program.machine,
            program.__enter__,
            lambda: elide.hunt(program, check="count == 1"),
            lambda: elide.outcomes(program, "count"),
        )
        for call in calls:
            with self.assertRaises(ValueError) as caught:
                call()
            self.assertIn("source.asm is closed", str(caught.exception))

    def test_a_program_that_is_closed_before_its_machine(self) -> None:
        with elide.Program.from_source(COUNTER) as program:
            machine = program.machine()
        with machine:
            self.assertEqual(machine.run(100).end, "all stopped")

    def test_a_program_of_a_file(self) -> None:
        path = self.file("counter.asm", COUNTER)
        program = elide.Program.from_file(path)
        for _ in range(2):
            with program, program.machine() as machine:
                machine.step(0)
        self.assertTrue(os.path.exists(path))

    def test_what_nobody_closes(self) -> None:
        machine = elide.Program.from_source(COUNTER).machine()
        pid = machine.pid
        machine.step(0)
        del machine
        self.assertFalse(is_running(pid))
        self.assertEqual(children(), self._processes)

    def test_an_exception_in_a_block(self) -> None:
        with self.assertRaises(KeyError):
            with elide.Program.from_source(COUNTER) as program, program.machine() as machine:
                raise KeyError
        self.assertFalse(is_running(machine.pid))

    def test_a_fork(self) -> None:
        """The end of a fork of Python ends no session and removes no file of the first."""
        source = f"""\
import elide, os, sys
program = elide.Program.from_source({COUNTER!r})
machine = program.machine()
child = os.fork()
if child == 0:
    sys.exit(0)
assert os.waitpid(child, 0)[1] == 0
machine.step(0)
program.machine().close()
"""
        words = [sys.executable, "-c", source]
        ran = subprocess.run(words, env=environment(), capture_output=True, text=True, check=False)
        self.assertEqual((ran.returncode, ran.stderr), (0, ""))

    def test_many_sessions(self) -> None:
        """Two hundred, opened and closed: no process, no file and no warning is left."""
        source = f"""\
import os, sys
sys.path.insert(0, {PYTHON!r})
import elide
from tests.support import children, open_files
files = open_files()
with elide.Program.from_source({COUNTER!r}) as program:
    for number in range(200):
        if number % 4 == 0:
            machine = program.machine()
            machine.step(0)
            del machine
        elif number % 4 == 1:
            program.machine().close()
        else:
            with program.machine(cores=2) as machine:
                machine.run(5)
        assert children() == [], number
        assert open_files() == files, number
"""
        words = [sys.executable, "-W", "error", "-X", "dev", "-c", source]
        ran = subprocess.run(words, env=environment(), capture_output=True, text=True, check=False)
        self.assertEqual((ran.returncode, ran.stderr), (0, ""))


class Messages(unittest.TestCase):
    """Exceptions as values."""

    def test_kinds(self) -> None:
        for kind in (elide.Fault, elide.Misuse, elide.ProgramEnded, elide.ProgramNotFound):
            self.assertTrue(issubclass(kind, elide.Error))
        self.assertTrue(issubclass(elide.BadAnswer, elide.Error))

    def test_texts(self) -> None:
        self.assertEqual(str(elide.Fault(23, "BadCores")), "fault 23 BadCores")
        fault = elide.Fault(12, "UnknownSymbol", 3, "fault 12 UnknownSymbol line 3")
        self.assertEqual(str(fault), "fault 12 UnknownSymbol line 3")
        fault = elide.Fault(12, "UnknownSymbol", 3, file="a.asm", quoted="jmp x")
        self.assertEqual(str(fault), "a.asm:3: fault 12 UnknownSymbol: jmp x")
        self.assertEqual(str(elide.Misuse("--mem")), "usage: --mem")
        ended = elide.ProgramEnded(-11)
        self.assertEqual(
            str(ended), "the program: was ended by SIGSEGV before the answer was whole"
        )
        self.assertIn("signal 99", str(elide.ProgramEnded(-99)))

    def test_they_are_pickled(self) -> None:
        for error in (
            elide.Fault(12, "UnknownSymbol", 3, "text", file="a.asm", quoted="jmp x"),
            elide.Misuse("--mem", "usage: --mem"),
            elide.ProgramEnded(-9, "text", command="step 0"),
            elide.ProgramNotFound("nowhere"),
            elide.BadAnswer("step 0", "text"),
        ):
            copy = pickle.loads(pickle.dumps(error))
            self.assertEqual((type(copy), str(copy)), (type(error), str(error)))
            self.assertEqual(copy.__dict__, error.__dict__)


if __name__ == "__main__":
    unittest.main()
