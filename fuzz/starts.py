"""Starts of the program: within limits, and what has to hold of each answer."""

import errno
import os
import resource
import selectors
import shlex
import subprocess
import time
import tty

import forms

# The seconds that a start may take; one that takes longer is started once more with the second number.
SECONDS, SECONDS_AGAIN = 10, 60
# The seconds of a processor that a start may take, where a target says so: no case is large.
WORK = 1
# The bytes of memory that a start may ask for, of a file that it may write, and that are read of what it says.
ROOM, LARGEST, MOST_SAID = 1 << 30, 64 << 20, 8 << 20
# The bytes that a pipe holds.
MOST_GIVEN = 1 << 16


class Finding(Exception):
    """What a case shows that ought not to be."""


class TooMuchSaid(Exception):
    """A start says more than is read. No more is asked of the case."""


class Answer:
    """What a start said."""

    def __init__(self, words, given, status, out, err):
        self.words, self.given, self.status, self.out, self.err = words, given, status, out, err
        # The seconds of a processor that it took.
        self.work = 0.0

    def said(self):
        """All that was said, to compare."""
        return self.status, self.out, self.err

    def fault(self):
        """The number and the line of the fault that was told, None where there is none."""
        return forms.fault_in(self.words, self.err)


def bound_memory():
    """Bounds the memory of all that is started from here on."""
    resource.setrlimit(resource.RLIMIT_AS, (ROOM, ROOM))
    resource.setrlimit(resource.RLIMIT_FSIZE, (LARGEST, LARGEST))
    resource.setrlimit(resource.RLIMIT_CORE, (0, 0))


def input_of(given):
    """A pipe that holds these bytes and is closed; what is more than a pipe holds is left out."""
    out, into = os.pipe()
    with open(into, "wb") as end:
        end.write(given[:MOST_GIVEN])
    return open(out, "rb")


def read_all(files, end):
    """What is said on each, or nothing where they are not at their ends by this time."""
    said = {file: b"" for file in files}
    with selectors.DefaultSelector() as selector:
        for file in files:
            selector.register(file, selectors.EVENT_READ)
        while selector.get_map():
            ready = selector.select(max(0, end - time.monotonic()))
            if not ready:
                return None
            for key, _ in ready:
                text = read_from(key.fd)
                said[key.fileobj] += text
                if len(said[key.fileobj]) > MOST_SAID:
                    raise TooMuchSaid
                if not text:
                    selector.unregister(key.fileobj)
    return [said[file] for file in files]


def talked(screen, given, end):
    """What is said on a terminal on which this is typed."""
    said = b""
    with selectors.DefaultSelector() as selector:
        selector.register(screen, selectors.EVENT_READ | selectors.EVENT_WRITE)
        while ready := selector.select(max(0, end - time.monotonic())):
            if ready[0][1] & selectors.EVENT_READ:
                text = read_from(screen.fileno())
                if not text:
                    return said
                said += text
            elif given:
                given = given[os.write(screen.fileno(), given[:256]):]
            else:
                selector.modify(screen, selectors.EVENT_READ)
    raise Finding(f"no end within {SECONDS_AGAIN} seconds on a terminal")


def work_so_far():
    """The seconds of a processor that all starts that have ended took."""
    used = resource.getrusage(resource.RUSAGE_CHILDREN)
    return used.ru_utime + used.ru_stime


def expect_little_work(answer):
    if answer.work > WORK:
        raise Finding(f"more than {WORK} second of a processor")


def read_from(fd):
    """What there is to read, nothing at the end: a terminal's is told by an error."""
    try:
        return os.read(fd, 1 << 16)
    except OSError as error:
        if error.errno != errno.EIO:
            raise
        return b""


def terminal():
    """The two ends of a terminal that changes nothing of what is written."""
    reader, writer = os.openpty()
    tty.setraw(writer)
    return reader, writer


def shown(word):
    """A word as a shell takes it, whatever its bytes."""
    text = word.decode("utf-8", "surrogateescape") if isinstance(word, bytes) else word
    if text.isprintable():
        return shlex.quote(text)
    parts = [chr(b) if 32 <= b < 127 and b not in b"'\\" else f"\\x{b:02x}" for b in os.fsencode(text)]
    return "$'" + "".join(parts) + "'"


class Starter:
    """Starts the program for the cases of a target, and keeps what was started for the case that is looked at."""

    def __init__(self, program, folder):
        self.program, self.folder = program, folder
        self.count = 0
        self.begin()

    def begin(self):
        """Begins another case."""
        self.kinds, self.answers = set(), []

    def path(self, name):
        return os.path.join(self.folder, name)

    def write(self, name, content):
        """Writes a file into the folder in which the program is started, and gives its name."""
        with open(self.path(name), "wb") as file:
            file.write(content)
        return name

    def read(self, name):
        """The content of a file of that folder, nothing where there is none."""
        try:
            with open(self.path(name), "rb") as file:
                return file.read()
        except OSError:
            return None

    def run(self, words, given, seconds, is_terminal=False):
        """The answer, or nothing where there is none in time."""
        out, errors = os.pipe(), terminal() if is_terminal else os.pipe()
        with input_of(given) as source, open(out[0], "rb") as from_out, open(errors[0], "rb", 0) as from_errors:
            process = subprocess.Popen(
                [self.program, *words], cwd=self.folder, env={"PATH": "/usr/bin:/bin"}, close_fds=False,
                stdin=source, stdout=out[1], stderr=errors[1],
            )
            os.close(out[1])
            os.close(errors[1])
            try:
                before = work_so_far()
                said = read_all([from_out, from_errors], time.monotonic() + seconds)
                answer = said and Answer(words, given, process.wait(), *said)
                if answer:
                    answer.work = work_so_far() - before
                return answer
            finally:
                process.kill()
                process.wait()

    def start(self, *words, given=b""):
        """The answer to these words and this input, of which holds what holds of every one."""
        self.count += 1
        self.answers.append(Answer(words, given, None, b"", b""))
        answer = self.run(words, given, SECONDS) or self.run(words, given, SECONDS_AGAIN)
        if answer is None:
            raise Finding(f"no end within {SECONDS_AGAIN} seconds")
        self.answers[-1] = answer
        self.kinds |= forms.kinds(answer)
        wrong = forms.what_is_wrong(answer)
        if wrong:
            raise Finding(wrong)
        return answer

    def on_terminal(self, answer):
        """Where standard error is a terminal, the same is said, with more words behind it."""
        self.count += 1
        other = self.run(answer.words, answer.given, SECONDS_AGAIN, is_terminal=True)
        if other is None:
            raise Finding(f"no end within {SECONDS_AGAIN} seconds where standard error is a terminal")
        self.answers.append(other)
        if (other.status, other.out) != (answer.status, answer.out):
            raise Finding("another answer where standard error is a terminal")
        expect_little_work(other)
        told, plain = (forms.PAINT.sub(b"", it.err) for it in (other, answer))
        rest = iter(told.split(b"\n"))
        if not all(line in rest for line in plain.split(b"\n")):
            raise Finding("less is told where standard error is a terminal")
        # A word of the command line is told as it was given.
        if forms.CONTROL.search(told) and not any(forms.CONTROL.search(os.fsencode(word)) for word in answer.words):
            raise Finding("control characters on a terminal")

    def talk(self, words, given):
        """What is said where standard input and standard output are one terminal's."""
        self.count += 1
        ends = terminal()
        os.set_blocking(ends[0], False)
        with open(ends[0], "rb", 0) as screen:
            process = subprocess.Popen(
                [self.program, *words], cwd=self.folder, env={"PATH": "/usr/bin:/bin"}, close_fds=False,
                stdin=ends[1], stdout=ends[1], stderr=subprocess.DEVNULL,
            )
            os.close(ends[1])
            try:
                return talked(screen, given, time.monotonic() + SECONDS_AGAIN)
            finally:
                process.kill()
                process.wait()

    def again(self, answer):
        """Starts once more: the answer is the same."""
        second = self.start(*answer.words, given=answer.given)
        if second.said() != answer.said():
            raise Finding("another answer at a second start")
