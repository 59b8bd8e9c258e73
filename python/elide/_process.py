"""A process of the program, and its pipes.

Both outputs are read together, so that neither fills up while the other is waited for, and a wait
looks at the process too: it ends where the process has, even if another holds the pipes open.
"""

import errno
import os
import select
import signal
import subprocess
import threading
import time
import weakref
from typing import Callable, Dict, List, Optional, Sequence

from .errors import ProgramNotFound

# How long is waited for bytes before the process is looked at, in milliseconds.
LOOK = 100

# How long a process may take to end behind its last output or the end of its input, in seconds.
GRACE = 2.0

# Where a path leads to no program.
NO_PROGRAM = frozenset({errno.ENOENT, errno.EACCES, errno.ENOEXEC, errno.ENOTDIR, errno.EISDIR})


class Process:
    """A process of these words, in a session of its own, so that Ctrl-C at a terminal ends it by
    way of Python alone and it is ended with all that it started."""

    def __init__(self, words: Sequence[str], *, has_input: bool) -> None:
        self.out = bytearray()
        self.err = bytearray()
        self._rows: Dict[int, bytearray] = {}
        self._failure: Optional[BaseException] = None
        self._end: Callable[[], object] = _nothing
        self._guard = threading.Lock()
        self._is_made = threading.Event()
        self._is_unwanted = False
        # Ctrl-C comes to the main thread alone. In the midst of a start it would leave a process
        # that nobody knows, so another thread makes it.
        starter = threading.Thread(target=self._start, args=(list(words), has_input))
        try:
            starter.start()
            self._is_made.wait()
            self._begin()
        except BaseException:
            with self._guard:
                self._is_unwanted = True
            # One that has not begun finds that out by itself.
            if starter.ident is not None:
                self._is_made.wait()
            self.end()
            raise

    def _start(self, words: List[str], has_input: bool) -> None:
        try:
            self._make(words, has_input)
        finally:
            self._is_made.set()

    def _make(self, words: List[str], has_input: bool) -> None:
        """Makes the process, and ends it where nobody wants it any more."""
        try:
            popen = subprocess.Popen(
                words,
                stdin=subprocess.PIPE if has_input else subprocess.DEVNULL,
                stdout=subprocess.PIPE,
                stderr=subprocess.PIPE,
                bufsize=0,
                start_new_session=True,
            )
        except BaseException as error:
            self._failure = error
            return
        with self._guard:
            if not self._is_unwanted:
                self._popen = popen
                # Also where nobody closes it: when it is collected, and at the end of Python.
                self._end = weakref.finalize(self, _end, popen, os.getpid())
                return
        _end(popen, os.getpid())

    def _begin(self) -> None:
        """Takes the pipes of the process that was made. Raises why there is none."""
        error = self._failure
        if isinstance(error, OSError) and error.errno in NO_PROGRAM:
            raise ProgramNotFound(
                f"{error.filename} cannot be started: {error.strerror}"
            ) from error
        if error is not None:
            raise error
        popen = self._popen
        assert popen.stdout is not None and popen.stderr is not None
        self.pid = popen.pid
        self._out = popen.stdout.fileno()
        self._rows = {self._out: self.out, popen.stderr.fileno(): self.err}
        self._poll = select.poll()
        for file in self._rows:
            self._poll.register(file, select.POLLIN)

    @property
    def status(self) -> int:
        """The exit status of a process that has ended."""
        status: Optional[int] = self._popen.returncode
        return 0 if status is None else status

    @property
    def is_writing(self) -> bool:
        """Whether more can come on standard output."""
        return self._out in self._rows

    def write(self, row: bytes) -> None:
        """Writes to the input of the process, at most as much as a pipe takes at once. What a
        process that has ended is told goes nowhere: that it has ended shows in what it writes."""
        assert self._popen.stdin is not None
        try:
            self._popen.stdin.write(row)
        except BrokenPipeError:
            pass

    def pump(self, deadline: Optional[float] = None) -> None:
        """Waits until the process has written something or has ended, and takes what is there.

        Raises TimeoutError behind the deadline, a time of `time.monotonic`.
        """
        while self._rows:
            ready = self._poll.poll(_patience(deadline))
            has_ended = not ready and self._has_ended()
            if has_ended:
                # What was written between the two looks; what else holds the pipes is not waited
                # for.
                ready = self._poll.poll(0)
            for file, _ in ready:
                self._take(file)
            if ready:
                return
            if has_ended:
                for file in list(self._rows):
                    self._leave(file)
                return
            if deadline is not None and time.monotonic() >= deadline:
                raise TimeoutError("the program has not answered in the time that was given")

    def finish(self, deadline: Optional[float] = None) -> int:
        """The exit status, once the process has written all and has ended. One that goes on for
        long behind the end of its output is ended."""
        while self.is_writing:
            self.pump(deadline)
        last = time.monotonic() + GRACE
        try:
            while self._rows:
                self.pump(last)
            while not self._has_ended() and time.monotonic() < last:
                time.sleep(0.001)
        except TimeoutError:
            pass
        self.end()
        return self.status

    def leave(self) -> None:
        """Closes the input of the process, gives it time to end, and ends it where it does not."""
        assert self._popen.stdin is not None
        try:
            self._popen.stdin.close()
            self.finish(time.monotonic() + GRACE)
        except TimeoutError:
            pass
        finally:
            self.end()

    def end(self) -> None:
        """Ends the process where it has not ended, with what it started, and closes its pipes."""
        self._rows = {}
        self._end()

    def _take(self, file: int) -> None:
        row = os.read(file, 65536)
        if row:
            self._rows[file] += row
        else:
            self._leave(file)

    def _leave(self, file: int) -> None:
        self._poll.unregister(file)
        del self._rows[file]

    def _has_ended(self) -> bool:
        """Whether the process has ended. Its number stays its own until `end`."""
        if self._popen.returncode is not None:
            return True
        try:
            return os.waitid(os.P_PID, self.pid, os.WEXITED | os.WNOHANG | os.WNOWAIT) is not None
        except ChildProcessError:
            return True


def _nothing() -> None:
    """The end of a process that has not begun."""


def _patience(deadline: Optional[float]) -> int:
    """How long to wait before the process is looked at, in milliseconds."""
    if deadline is None:
        return LOOK
    return max(0, min(LOOK, int((deadline - time.monotonic()) * 1000) + 1))


def _end(popen: "subprocess.Popen[bytes]", owner: int) -> None:
    """Ends a process and what it started. A fork of Python does not own it."""
    pipes = [pipe for pipe in (popen.stdin, popen.stdout, popen.stderr) if pipe is not None]
    try:
        if owner == os.getpid() and popen.returncode is None:
            try:
                os.killpg(popen.pid, signal.SIGKILL)
            except (ProcessLookupError, PermissionError):
                popen.kill()
            popen.wait()
    finally:
        for pipe in pipes:
            pipe.close()


def lines(row: bytearray) -> List[str]:
    """The lines of what a process wrote, as text. Only a line feed ends one."""
    return row.decode("utf-8", errors="replace").rstrip("\n").split("\n") if row else []
