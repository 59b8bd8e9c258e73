"""The programs that are kept in out/, and which of them a start takes.

Beside each stands a note of what it was made of, `NAME.note`, a word and its value a line. `out/choice`, which ./elide reads,
names the program that a start takes; its time is that at which the sources were read for it.
"""

import contextlib
import fcntl
import hashlib
import os
import time

from sources import CODE, HERE, STATED, sum_of, watched

OUT = f"{HERE}/out"
# More seconds than the clock of a file's time may lag behind.
LAG = 0.05


class Kept:
    """A program that is kept, whether what it does was proved, and which folders of the crates decide that."""

    def __init__(self, name, state, parts):
        self.name, self.state, self.parts = name, state, parts
        self.path, self.note = f"{OUT}/{name}", f"{OUT}/{name}.note"

    def noted(self):
        """What its note says, by the words."""
        try:
            with open(self.note, encoding="utf-8") as file:
                return dict(line.rstrip("\n").split(" ", 1) for line in file)
        except (OSError, ValueError):
            return {}

    def fits(self):
        """Whether it is there, as it was made, and the sources are those that it was made of."""
        noted = self.noted()
        try:
            return noted["program"] == sum_of_file(self.path) and noted["sources"] == sum_of(self.parts)
        except (OSError, KeyError):
            return False

    def keep(self, program, sources, words):
        """Keeps a copy of a program that was made of these sources, with further words for its note."""
        with open(program, "rb") as file:
            content = file.read()
        note = {"sources": sources, "program": hashlib.sha256(content).hexdigest(), **words}
        put(self.path, content, mode=0o755)
        put(self.note, "".join(f"{word} {value}\n" for word, value in note.items()).encode())


PROVED = Kept("elide", "proved here", STATED)
COMPILED = Kept("elide-compiled", "not proved here", CODE)


def sum_of_file(path):
    with open(path, "rb") as file:
        return hashlib.sha256(file.read()).hexdigest()


def put(path, content, mode=0o644, at=None):
    """Writes a file in one step, with a time of its own where one is given."""
    part = f"{path}.next"
    os.makedirs(OUT, exist_ok=True)
    try:
        with open(part, "wb") as file:
            file.write(content)
        os.chmod(part, mode)
        if at is not None:
            os.utime(part, (at, at))
        os.replace(part, path)
    except BaseException:
        with contextlib.suppress(FileNotFoundError):
            os.remove(part)
        raise


@contextlib.contextmanager
def alone(name, waits=lambda: None):
    """What is done under a lock of that name; where another has it, `waits` is called first."""
    os.makedirs(OUT, exist_ok=True)
    with open(f"{OUT}/{name}.lock", "w", encoding="ascii") as lock:
        try:
            fcntl.flock(lock, fcntl.LOCK_EX | fcntl.LOCK_NB)
        except BlockingIOError:
            waits()
            fcntl.flock(lock, fcntl.LOCK_EX)
        yield


def choose():
    """Chooses what a start takes, the proved program before the other, and gives it; nothing, where neither fits the sources."""
    with alone("choice"):
        at = time.time() - LAG
        chosen = next((it for it in (PROVED, COMPILED) if it.fits()), None)
        if chosen:
            lines = f"program={chosen.name}\nstate='{chosen.state}'\nsources='{' '.join(watched())}'\n"
            put(f"{OUT}/choice", lines.encode(), at=at)
        return chosen
