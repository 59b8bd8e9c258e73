"""Programs that the simulator runs: sources, images and executables."""

import logging
import os
import secrets
import shutil
import stat
import tempfile
import warnings
import weakref
from types import TracebackType
from typing import Callable, List, Optional, Sequence, Type, Union

from . import _options, errors
from ._path import PathLike, program_path
from .errors import Error, Fault, SourceWarning
from .machine import Machine

LOG = logging.getLogger("elide")


class Program:
    """A program, in a file. `path` is that file, and `name` what messages call it.

    A program of a text has a file of its own, which goes with `close`, with the end of a `with`
    block, or with the object.
    """

    def __init__(
        self,
        path: PathLike,
        *,
        name: Optional[str] = None,
        elide: Optional[PathLike] = None,
    ) -> None:
        self.path = os.fspath(path)
        self.name = self.path if name is None else name
        self._elide = elide
        self._is_closed = False
        # Removes the file of a program of a text.
        self._end: Optional[Callable[[], object]] = None

    @classmethod
    def from_file(cls, path: PathLike, *, elide: Optional[PathLike] = None) -> "Program":
        """The program in a file: a source in NASM's syntax, image text, or an ELF executable.

        `elide` is the path of the simulator; see `program_path`. Raises OSError, as
        FileNotFoundError, where the file cannot be read.
        """
        _check_readable(path)
        return cls(path, elide=elide)

    @classmethod
    def from_source(
        cls,
        text: Union[str, bytes],
        *,
        name: str = "source.asm",
        elide: Optional[PathLike] = None,
    ) -> "Program":
        """A program of a text, mostly a source. `name` is the name of its file, which messages
        tell, and `elide` the path of the simulator; see `program_path`."""
        if name in ("", ".", "..") or "/" in name or "\0" in name:
            raise ValueError(f"the name of a source is that of a file, without a folder: {name!r}")
        folder = os.path.join(tempfile.gettempdir(), f"elide-{secrets.token_hex(8)}")
        # From before it is there: Ctrl-C may come at any time.
        end = weakref.finalize(cls, _remove, folder, os.getpid())
        try:
            os.mkdir(folder, 0o700)
        except FileExistsError:
            end.detach()
            raise
        except BaseException:
            end()
            raise
        try:
            path = os.path.join(folder, name)
            row = text.encode("utf-8", errors="surrogateescape") if isinstance(text, str) else text
            with open(path, "wb") as file:
                file.write(row)
            program = cls(path, name=name, elide=elide)
        except BaseException:
            end()
            raise
        program._end = weakref.finalize(program, _remove, folder, os.getpid())
        end.detach()
        return program

    def machine(
        self,
        cores: int = 1,
        memory: Optional[int] = None,
        *,
        entry: Union[None, _options.Address, Sequence[_options.Address]] = None,
        reads: Optional[int] = None,
        writes: Optional[int] = None,
        store_buffer: Optional[int] = None,
        steps: Optional[_options.Steps] = None,
        schedule: Optional[PathLike] = None,
        in_turn: bool = False,
        random: Optional[int] = None,
        limit: Optional[int] = None,
        events: Union[None, int, str] = None,
        seed: Optional[int] = None,
        timeout: Optional[float] = None,
    ) -> Machine:
        """A machine with this program, before its first step: a session of `elide debug`.

        The parameters are the options of that command. Where a schedule is given, by `steps`,
        `schedule` (a file), `in_turn` or `random`, `Machine.run` goes along it. `timeout` is how
        many seconds an answer may take; one that takes longer is a TimeoutError and ends the
        session. Raises Fault and Misuse where the program refuses to start.
        """
        plan = _options.Schedule(
            steps=steps,
            schedule=schedule,
            in_turn=in_turn,
            random=random,
            limit=limit,
            events=events,
            seed=seed,
        )
        options = _options.machine(cores, memory, entry, reads, writes, store_buffer)
        with plan as words:
            command = self.command("debug", [*options, *words])
            return Machine(self, command, plan, timeout)

    def command(self, name: str, options: Sequence[str]) -> List[str]:
        """The words of one of the simulator's commands with this program."""
        self._check_open()
        path = f"./{self.path}" if self.path.startswith("-") else self.path
        return [program_path(self._elide), name, path, *options]

    def named(self, text: str) -> str:
        """A text of the simulator's with the program's name in the place of its file's path."""
        return text.replace(self.path, self.name)

    def error(
        self,
        status: int,
        text: str,
        command: str,
        said: Sequence[str],
        schedule: Optional[str],
    ) -> Error:
        """What the simulator's end with this status told of this program, with the file and the
        line at fault. `text` is all that it wrote, `said` its lines on standard error, and
        `schedule` names the schedule's file, if there is one."""
        said = [self.named(line) for line in said]
        error = errors.error_of(status, self.named(text), command, said)
        if isinstance(error, Fault):
            error.warnings = tuple(errors.warnings_of(said, self.name))
            if error.number in errors.OF_SCHEDULES:
                error.file = schedule
            elif error.number == errors.INPUT:
                error.file = self._unreadable(schedule)
            else:
                error.file = self.name
            if error.line is not None and error.file == self.name:
                error.quoted = errors.quoted_line(self.path, error.line)
        return error

    def tell(self, said: Sequence[str], level: int) -> None:
        """Tells what the simulator said on standard error beside a fault: a source's warnings as
        warnings of Python, and all else to the log `elide`."""
        for line in errors.others_of(said):
            LOG.info("%s", line)
        for line in errors.warnings_of(said, self.name):
            warnings.warn(line, SourceWarning, stacklevel=level + 1)

    def close(self) -> None:
        """Removes the file of a program of a text. A machine that has begun does not need it."""
        if self._end is not None:
            self._is_closed = True
            self._end()

    def __enter__(self) -> "Program":
        self._check_open()
        return self

    def __exit__(
        self,
        kind: Optional[Type[BaseException]],
        error: Optional[BaseException],
        trace: Optional[TracebackType],
    ) -> None:
        self.close()

    def __repr__(self) -> str:
        return f"<elide.Program {self.name}>"

    def _check_open(self) -> None:
        if self._is_closed:
            raise ValueError(f"the program {self.name} is closed")

    def _unreadable(self, schedule: Optional[str]) -> str:
        """The name of the file that cannot be read: the program's, or a schedule's."""
        if schedule is None:
            return self.name
        try:
            _check_readable(self.path)
        except OSError:
            return self.name
        return schedule


def _check_readable(path: PathLike) -> None:
    """Raises OSError where a file cannot be read. A pipe is not touched, since it is read once."""
    mode = os.stat(path).st_mode
    if stat.S_ISREG(mode) or stat.S_ISDIR(mode):
        with open(path, "rb"):
            pass


def _remove(folder: str, owner: int) -> None:
    """Removes the folder of a program's file, also where Ctrl-C comes meanwhile. A fork of Python
    does not own it."""
    if owner == os.getpid():
        try:
            shutil.rmtree(folder, ignore_errors=True)
        except BaseException:
            shutil.rmtree(folder, ignore_errors=True)
            raise
