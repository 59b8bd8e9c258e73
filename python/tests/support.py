"""What the tests have in common: programs, a program that is no elide, and what must not be
left."""

import glob
import os
import shutil
import stat
import struct
import sys
import tempfile
import textwrap
import time
import unittest
from typing import Dict, List, Optional, Sequence, Tuple

PYTHON = os.path.dirname(os.path.dirname(os.path.abspath(__file__)))
TOP = os.path.dirname(PYTHON)
EXAMPLES = os.path.join(TOP, "examples")

# Each core adds 1 to a counter in a transaction, and stops.
COUNTER = """\
start:  xbegin failed
        mov eax, [count]
        inc eax
        mov [count], eax
        xend
failed: hlt
section .data
count:  dd 0
"""

# The same without a transaction and without a lock.
LOST = """\
start:  inc dword [count]
        hlt
section .data
count:  dd 0
"""

# A core that never stops.
ENDLESS = "start: jmp start\n"


def example(name: str) -> str:
    """The path of one of the repository's examples."""
    return os.path.join(EXAMPLES, name)


def children() -> List[int]:
    """The processes that this one has started and that are still there."""
    found: List[int] = []
    for path in glob.glob("/proc/self/task/*/children"):
        try:
            with open(path, encoding="ascii") as file:
                found += map(int, file.read().split())
        except OSError:
            pass
    return sorted(found)


def is_running(pid: int) -> bool:
    """Whether a process is there, and has not ended."""
    try:
        with open(f"/proc/{pid}/stat", encoding="ascii", errors="replace") as file:
            return file.read().rsplit(")", 1)[1].split()[0] not in "ZX"
    except OSError:
        return False


def wait_for_end(pid: int, seconds: float = 10) -> bool:
    """Whether a process ends in this time."""
    last = time.monotonic() + seconds
    while is_running(pid):
        if time.monotonic() > last:
            return False
        time.sleep(0.005)
    return True


def open_files() -> int:
    """How many files this process has open."""
    return len(os.listdir("/proc/self/fd"))


class Case(unittest.TestCase):
    """A test that leaves no process, no open file and no file of a program behind."""

    def setUp(self) -> None:
        self.folder = tempfile.mkdtemp(prefix="tests-")
        self.addCleanup(shutil.rmtree, self.folder)
        self._processes, self._files = children(), open_files()
        self._temporary = self._left()

    def tearDown(self) -> None:
        self.assertEqual(children(), self._processes, "processes are left")
        self.assertEqual(open_files(), self._files, "files are left open")
        self.assertEqual(self._left(), self._temporary, "files of programs are left")

    def _left(self) -> List[str]:
        return sorted(glob.glob(os.path.join(tempfile.gettempdir(), "elide-*")))

    def file(self, name: str, text: str) -> str:
        """The path of a file of this text."""
        path = os.path.join(self.folder, name)
        with open(path, "w", encoding="utf-8") as file:
            file.write(text)
        return path

    def fake(self, body: str, name: str = "fake") -> str:
        """The path of a program that is no elide: a script of Python."""
        path = self.file(name, f"#!{sys.executable} -I\n{textwrap.dedent(body)}")
        os.chmod(path, os.stat(path).st_mode | stat.S_IXUSR)
        return path


def executable(symbols: Sequence[Tuple[bytes, int]], code: bytes = b"\x90\xf4") -> bytes:
    """An ELF executable whose code, at 1000h, has these symbols; 64 zeros stand behind the code."""
    base, data = 0x1000, code + bytes(64)
    names, offsets = b"\0", []
    for name, _ in symbols:
        offsets.append(len(names))
        names += name + b"\0"
    table = bytes(16)
    for at, (_, value) in zip(offsets, symbols):
        # Global, of no type, in section 1.
        table += struct.pack("<IIIBBH", at, base + value, 0, 0x10, 0, 1)
    text_at = 52 + 32
    table_at = text_at + len(data)
    names_at = table_at + len(table)
    sections_at = names_at + len(names)
    head = b"\x7fELF\x01\x01\x01" + bytes(9)
    head += struct.pack("<HHIIIIIHHHHHH", 2, 3, 1, base, 52, sections_at, 0, 52, 32, 1, 40, 4, 3)
    segment = struct.pack("<IIIIIIII", 1, text_at, base, base, len(data), len(data), 7, 4096)
    sections = [
        bytes(40),
        struct.pack("<10I", 0, 1, 7, base, text_at, len(data), 0, 0, 1, 0),
        struct.pack("<10I", 0, 2, 0, 0, table_at, len(table), 3, 1, 4, 16),
        struct.pack("<10I", 0, 3, 0, 0, names_at, len(names), 0, 0, 1, 0),
    ]
    return head + segment + data + table + names + b"".join(sections)


def environment(**more: Optional[str]) -> Dict[str, str]:
    """The environment of a further Python that has this package, with some variables changed."""
    found = {**os.environ, "PYTHONPATH": PYTHON, "PYTHONDONTWRITEBYTECODE": "1"}
    for name, value in more.items():
        if value is None:
            found.pop(name, None)
        else:
            found[name] = value
    return found
