"""The lines and objects of the program's formats, as records."""

import json
import unittest
from typing import Any, Dict, List

import elide
from elide import _json, _lines

STATE = (
    "core 63 {} eax=00000001 ecx=00000002 edx=00000003 ebx=00000004 esp=00010000 ebp=00000005"
    " esi=00000006 edi=00000007 eip=ffffffff flags={}"
)

# What a search of all schedules found.
FOUND: Dict[str, Any] = {
    "show": ["eax@0", "x"],
    "outcomes": [{"values": [0, 1], "ends": 2, "schedule": ["0", "1"]}],
    "violations": [{"option": "--forbid", "text": "x == 1", "schedule": ["0"]}],
    "stops": [{"cause": "#BP", "schedule": ["1", "0i"]}],
    "stuck": {"states": 3, "schedule": ["1"]},
    "states": 5,
    "whole": False,
}

# A core, and what a command shows of a machine.
CORE: Dict[str, Any] = {
    "core": 63,
    "state": "stop",
    "depth": 0,
    "stop": "#GP",
    **{name: number for number, name in enumerate(_lines.REGISTERS)},
    "flags": ["CF", "OF"],
}
SHOWN: Dict[str, Any] = {
    "cores": [CORE],
    "dump": [{"address": 256, "bytes": "00ff"}],
    "show": [{"at": "table+8", "address": 264, "value": 4294967295}],
}


def named(text: str) -> str:
    return text.replace("folder/x.asm", "x.asm")


class Lines(unittest.TestCase):
    """Lines of the debugger."""

    def test_states(self) -> None:
        for word, state, depth in (
            ("run", "run", 0),
            ("mid", "mid", 0),
            ("tx7", "tx", 7),
            ("condemned", "condemned", None),
            ("stop:#GP", "stop:#GP", 0),
            ("stop:not-in-subset", "stop:not-in-subset", 0),
        ):
            regs = _lines.registers([STATE.format(word, "8d5")])
            self.assertEqual((regs.core, regs.state, regs.depth), (63, state, depth))
            values = [getattr(regs, name) for name in _lines.REGISTERS]
            self.assertEqual(values, [1, 2, 3, 4, 65536, 5, 6, 7, 0xFFFFFFFF])
            self.assertEqual(regs.flags, ("CF", "PF", "AF", "ZF", "SF", "OF"))

    def test_steps(self) -> None:
        for line, step in (
            ("0 plain", elide.Step(1, 0, "plain")),
            ("3 stopped #GP", elide.Step(1, 3, "stopped", cause="#GP")),
            ("1 aborted 00000006", elide.Step(1, 1, "aborted", status=6)),
            ("1 aborted ff000001", elide.Step(1, 1, "aborted", status=0xFF000001)),
            (
                "0 aborted 00000000 interrupt",
                elide.Step(1, 0, "aborted", status=0, event="interrupt"),
            ),
            (
                "0 aborted 00000008 eviction",
                elide.Step(1, 0, "aborted", status=8, event="eviction"),
            ),
        ):
            self.assertEqual(_lines.step(line, 1), step)
            self.assertEqual(str(step), line)
        self.assertEqual(elide.Step(1, 12, "aborted", status=6, event="snoop").pick, "12s")
        self.assertEqual(_lines.step("0 drained", 1).pick, "0d")

    def test_pending(self) -> None:
        self.assertEqual(_lines.pending(["pending 1 -"]), ())
        self.assertEqual(
            _lines.pending(["pending 1 00000140 00000001", "pending 1 00000181 ff"]),
            (elide.Pending(1, 0x140, 1, 4), elide.Pending(1, 0x181, 0xFF, 1)),
        )
        with self.assertRaises(ValueError):
            _lines.pending(["pending 1 00000140 001"])

    def test_reasons(self) -> None:
        for text, cause, begun in (
            ("capacity; begun at step 3", "capacity", 3),
            ("nested deeper than 7; begun at step 1", "nested deeper than 7", 1),
            ("#BP; begun at step 12", "#BP", 12),
            ("something new", "something new", None),
        ):
            reason = _lines.reason([f"core 1: {text}"])
            self.assertEqual(reason, elide.Reason(1, text, cause, begun=begun))
        self.assertIsNone(_lines.reason(["core 1: its next step is no abort"]))
        told = (
            "core 0: conflict line 40: drained at step 4 by core 1 at 00000116, stored at step 3"
            "; begun at step 1"
        )
        drained = _lines.reason([told])
        assert drained is not None
        self.assertEqual((drained.access, drained.step, drained.by), ("drained", 4, 1))
        self.assertEqual((drained.line, drained.address, drained.begun), (0x40, 0x116, 1))
        self.assertEqual((drained.cause, drained.stored), ("conflict", 3))

    def test_other_forms(self) -> None:
        for line in ("", "0", "0 aborted", "0 aborted 6", "a plain", "0 plain ", "0 stopped"):
            with self.subTest(line=line), self.assertRaises(ValueError):
                _lines.step(line, 1)
        whole = STATE.format("run", "8d5")
        rows: List[List[str]] = [[], ["core 0"], [whole, "more"], [whole[:-1] + "x"]]
        for row in rows:
            with self.subTest(row=row), self.assertRaises(ValueError):
                _lines.registers(row)


class Objects(unittest.TestCase):
    """Objects of `--json`, as JSON.md has them."""

    def fields(self, command: str, status: int = 0, **fields: Any) -> _json.Fields:
        text = json.dumps({"format": 1, "command": command, **fields, "status": status})
        return _json.object_of(text, command, status)

    def test_hunt(self) -> None:
        runs = {"ended": 9, "cut": 1}
        self.assertIsNone(_json.failure(self.fields("hunt", runs=runs, failure=None), named))
        length = {"steps": 47, "switches": 32, "events": 0}
        failure = {
            "run": 9,
            "check": {"option": "--expect-halt", "text": None},
            "before": length,
            "after": length,
            "deciding": 2,
            "schedule": ["0", "1i"],
            "replay": "elide replay folder/x.asm",
        }
        told = _json.failure(self.fields("hunt", 3, runs=runs, failure=failure), named)
        wanted = elide.Failure(
            run=9,
            option="--expect-halt",
            check=None,
            before=elide.Length(47, 32, 0),
            after=elide.Length(47, 32, 0),
            deciding=2,
            schedule=("0", "1i"),
            replay="elide replay x.asm",
            ended=9,
            cut=1,
        )
        self.assertEqual(told, wanted)

    def test_outcomes(self) -> None:
        told = _json.outcomes(self.fields("outcomes", 3, **FOUND))
        self.assertEqual(told.outcomes, (elide.Outcome((0, 1), 2, ("0", "1")),))
        self.assertEqual((told.show, told.states), (("eax@0", "x"), 5))
        self.assertEqual((told.values, told.whole), ({(0, 1)}, False))
        self.assertEqual(told.violations, (elide.Violation("--forbid", "x == 1", ("0",)),))
        self.assertEqual(told.stops, (elide.Stop("#BP", ("1", "0i")),))
        self.assertEqual(told.stuck, elide.Stuck(3, ("1",)))
        free = _json.outcomes(self.fields("outcomes", **{**FOUND, "stuck": None}))
        self.assertIsNone(free.stuck)

    def test_shown(self) -> None:
        told = _json.threads(self.fields("threads", **SHOWN))
        (regs,) = told.cores
        self.assertEqual((regs.core, regs.state, regs.depth), (63, "stop:#GP", 0))
        self.assertEqual([getattr(regs, name) for name in _lines.REGISTERS], list(range(9)))
        self.assertEqual((regs.stop, regs.flags), ("#GP", ("CF", "OF")))
        self.assertEqual(told.dump, (elide.Dump(256, b"\x00\xff"),))
        self.assertEqual(told.show, (elide.Shown("table+8", 264, 0xFFFFFFFF),))
        self.assertEqual(told.values, {"table+8": 0xFFFFFFFF})

    def test_states(self) -> None:
        for state, depth, stop, wanted in (
            ("run", 0, None, "run"),
            ("mid", 0, None, "mid"),
            ("tx", 7, None, "tx"),
            ("condemned", 2, None, "condemned"),
            ("stop", 0, "not-in-subset", "stop:not-in-subset"),
        ):
            core = {**CORE, "state": state, "depth": depth, "stop": stop}
            told = _json.threads(self.fields("threads", **{**SHOWN, "cores": [core]}))
            self.assertEqual((told.cores[0].state, told.cores[0].depth), (wanted, depth))

    def test_run(self) -> None:
        told = _json.run(self.fields("run", outcomes=None, **SHOWN, running=None))
        self.assertEqual((told.outcomes, told.running), (None, None))
        none: Dict[str, Any] = {"stop": None, "status": None, "event": None}
        outcomes = [
            {"step": 1, "core": 1, "outcome": "begun", **none},
            {"step": 2, "core": 1, "outcome": "aborted", **none, "status": 8, "event": "eviction"},
            {"step": 7, "core": 0, "outcome": "stopped", **none, "stop": "HLT"},
        ]
        told = _json.run(self.fields("run", 3, outcomes=outcomes, **SHOWN, running=[1]))
        wanted = (
            elide.Step(1, 1, "begun"),
            elide.Step(2, 1, "aborted", status=8, event="eviction"),
            elide.Step(7, 0, "stopped", cause="HLT"),
        )
        self.assertEqual((told.outcomes, told.running), (wanted, (1,)))
        told = _json.run(self.fields("run", outcomes=[], **SHOWN, running=[]))
        self.assertEqual((told.outcomes, told.running), ((), ()))

    def test_replay(self) -> None:
        for agree in (True, False):
            told = _json.replay(self.fields("replay", 0 if agree else 1, **SHOWN, agree=agree))
            self.assertEqual((told.agree, told.values), (agree, {"table+8": 0xFFFFFFFF}))

    def test_whole(self) -> None:
        text = '{"format":1,"status":3}\n'
        self.assertTrue(_json.is_whole(text, 3))
        for other, status in ((text, 0), (text[:-1], 3), ("", 0), (text + "more\n", 3)):
            self.assertFalse(_json.is_whole(other, status))

    def test_fields_that_are_added(self) -> None:
        one = {**FOUND["outcomes"][0], "new": 1}
        found: Dict[str, Any] = {**FOUND, "outcomes": [one], "new": {}}
        told = _json.outcomes(self.fields("outcomes", 3, **found))
        self.assertEqual(told, _json.outcomes(self.fields("outcomes", 3, **FOUND)))
        more: Dict[str, Any] = {
            name: [{**it, "new": []} for it in rows] for name, rows in SHOWN.items()
        }
        shown = _json.threads(self.fields("threads", **more, new="1"))
        self.assertEqual(shown, _json.threads(self.fields("threads", **SHOWN)))

    def test_fields_of_other_types(self) -> None:
        for field, value in (
            ("states", True),
            ("states", "1"),
            ("states", None),
            ("show", "eax@0"),
            ("show", [1]),
            ("whole", 0),
            ("outcomes", {}),
        ):
            found: Dict[str, Any] = {**FOUND, field: value}
            with self.subTest(field=field, value=value), self.assertRaises(ValueError) as caught:
                _json.outcomes(self.fields("outcomes", 3, **found))
            self.assertIn(field, str(caught.exception))

    def test_shown_of_other_types(self) -> None:
        core: Dict[str, Any]
        for core in ({"eax": "0"}, {"state": None}, {"depth": True}, {"flags": "CF"}, {"stop": 1}):
            with self.subTest(core=core), self.assertRaises(ValueError):
                cores = [{**CORE, **core}]
                _json.threads(self.fields("threads", **{**SHOWN, "cores": cores}))
        shown: Dict[str, Any]
        for shown in (
            {"cores": None},
            {"cores": [1]},
            {"dump": [{"address": 0, "bytes": "0g"}]},
            {"show": [{"at": "x", "address": 0, "value": None}]},
        ):
            with self.subTest(shown=shown), self.assertRaises(ValueError):
                _json.threads(self.fields("threads", **{**SHOWN, **shown}))
        with self.assertRaises(ValueError):
            _json.replay(self.fields("replay", **SHOWN))
        for running in (1, ["1"], [True]):
            with self.subTest(running=running), self.assertRaises(ValueError):
                _json.run(self.fields("run", outcomes=None, **SHOWN, running=running))


if __name__ == "__main__":
    unittest.main()
