"""The debugger's lines: `debug` over standard input (docs/FORMATS.md, "Debugger").

A case is a line that names the machine, and the bytes of the input behind it.
"""

import re

import forms
import readers
from target import Target, cases_of, expect, forms_of, is_wanting, words_of

SOURCE = b"""start:  xbegin .fall
        inc dword [count]
        xend
        hlt
.fall:  lock inc dword [count]
        hlt
size equ 4
high equ 0xffffffff
section .data
count:  dd 0
"""
SYMBOLS = {b"start": 0x100, b"start.fall": 0x110, b"size": 4, b"high": 0xFFFFFFFF}
FILES = {"conflict.img": b"image 1 100 16\nc7f80f000000a10010000040a3001000000f01d5f4f4\n", "words.asm": SOURCE}
MACHINES = {
    b"image": ("conflict.img", "--cores", "2"),
    b"source": ("words.asm", "--cores", "2"),
    b"schedule": ("words.asm", "--cores", "3", "--steps", "0 0 1 1 0i 0 1e 1 2 2s 2 0 0 1 1"),
    b"random": ("conflict.img", "--cores", "4", "--random", "3", "--events", "1/4:interrupt,snoop"),
}
CORES = {b"image": 2, b"source": 2, b"schedule": 3, b"random": 4}
MOST_BYTES = 256
OUTCOME = rb"(?:" + forms.OUTCOME.pattern + rb")\n"
ENDS = rb"all stopped\n|error 7[24]\n|break \d+ [0-9a-f]{8}\n|the schedule has ended\n"
RUN = rb"(?:" + OUTCOME + rb")*(?:" + ENDS + rb")?"
REASON = rb"core \d+: .+\n"
# What is answered where nothing is refused.
ANSWERS = {
    b"step": OUTCOME, b"run": RUN, b"next": RUN, b"back": rb"at step \d+\n", b"break": rb"ok\n", b"clear": rb"ok\n",
    b"regs": forms.STATE.pattern + rb"\n", b"mem": rb"(?:" + forms.DUMP.pattern + rb"\n)+", b"why": REASON,
    b"sets": rb"sets \d+ \S+ reads (?:-|[0-9a-f]+(?: [0-9a-f]+)*) writes (?:-|[0-9a-f]+(?: [0-9a-f]+)*)\n",
    b"list": rb"(?:[0-9a-f]{8}  [0-9a-f]+ +\S.*\n)+", b"help": rb"(?:\S.*\n)+", b"quit": rb"bye\n",
}
# A line that is no command: it is sent behind each other, so that the answers are parted by its refusal.
MARK, MARKED = b"@\n", b"error 70\n"


def refusals(line, cores, symbols):
    """With what a line may be refused, by its words alone: the number; 0 where it need not be."""
    if len(line) > MOST_BYTES:
        return {70}
    name, *rest = filter(None, line.split(b" "))
    if name not in ANSWERS:
        return {70}
    wanted = {b"help": 0, b"quit": 0, b"mem": 2, b"list": 2}.get(name, 1)
    if len(rest) < wanted or len(rest) > wanted:
        return {71}
    numbers = [readers.number_of(word) for word in rest]
    if name in (b"break", b"clear", b"mem", b"list") and numbers[0] is None:
        numbers[0] = address_of(rest[0], symbols)
    if name == b"step" and numbers[0] is None:
        step = readers.run_of(rest[0], False, True)
        numbers = [step.core if step else None]
    if None in numbers:
        return {71}
    return ranges(name, numbers, cores)


def ranges(name, numbers, cores):
    if name in (b"step", b"regs", b"sets", b"why"):
        return {72} if numbers[0] >= cores else {0, 74} if name == b"step" else {0}
    if name in (b"run", b"next"):
        return {0} if 1 <= numbers[0] <= 100_000 else {73}
    if name == b"mem":
        return {0} if 1 <= numbers[1] <= 256 and numbers[0] + numbers[1] <= 65536 else {73}
    if name == b"list":
        return {0, 73} if 1 <= numbers[1] <= 64 else {73}
    if name in (b"break", b"clear"):
        return {73} if numbers[0] > 2**32 - 1 else {0, 75} if name == b"break" else {0}
    return {0, 73} if name == b"back" else {0}


def address_of(word, symbols):
    """The address of a symbol, or of a sum of one and a number."""
    if word in symbols:
        return symbols[word]
    found = re.fullmatch(rb"(.*)([+-])([^+-]*)", word, re.DOTALL)
    number = readers.number_of(found[3]) if found else None
    if number is None or found[1] not in symbols:
        return None
    address = symbols[found[1]] + (number if found[2] == b"+" else -number)
    return address if address >= 0 else 2**64


# What a step was, as it is said everywhere; on a terminal the instruction follows.
OUTCOMES = (
    rb"plain|loaded|idle|begun|inside|committed|stopped (?:" + forms.WORDS + rb")"
    rb"|aborted [0-9a-f]{8}(?: (?:interrupt|eviction|snoop))?"
)


def unspoken(said):
    """What is said on a terminal without the prompts, the words of refusals, the instructions of steps and the names of labels."""
    said = re.sub(rb"(?m)^(?:elide> )+", b"", said)
    said = re.sub(rb"(?m)^(error 7[0-9]): .*$", rb"\1", said)
    said = re.sub(rb"(?m)^(break \d+ [0-9a-f]{8}) <.*>$", rb"\1", said)
    said = re.sub(rb"(?m)^(\d+ (?:" + OUTCOMES + rb")) [0-9a-f]{8}(?: .*)?$", rb"\1", said)
    return re.sub(rb"(?m)^[\w.]+:\n", b"", said)


def is_blank(line):
    return len(line) <= MOST_BYTES and not line.strip(b" ")


class Debug(Target):
    name = "debug"
    tokens = words_of("debug.words") + [b"x" * 250, b" " * 257]
    COMMANDS = forms_of("debug.forms")

    def seeds(self):
        return cases_of("debug.txt")

    def made(self, draw):
        lines = [draw.choice(self.COMMANDS).format(draw.randrange(300)) for _ in range(draw.randrange(1, 30))]
        return draw.choice(list(MACHINES)) + b"\n" + "\n".join(lines).encode() + b"\n"

    def look(self, case, starter):
        for name, content in FILES.items():
            starter.write(name, content)
        machine, _, given = case.partition(b"\n")
        machine = machine if machine in MACHINES else sorted(MACHINES)[len(case) % len(MACHINES)]
        symbols = {**SYMBOLS, b"count": 0x140} if "words.asm" in MACHINES[machine] else {}
        lines = [line for line in readers.lines_of(given) if not is_blank(line)]
        marked = b"".join(line + (b"\r\n" if line.endswith(b"\r") else b"\n") + MARK for line in lines)
        answer = starter.start("debug", *MACHINES[machine], given=marked)
        if is_wanting(answer):
            return
        expect(answer.status == 0 and answer.out.endswith(b"bye\n"), "a session that does not go on to its end")
        answers = self.parted(lines, answer.out, CORES[machine], symbols)
        for line, text in zip(lines, answers):
            starter.kinds.add((b"debug", line.lstrip()[:5], forms.kind_of_line(text.split(b"\n")[0])))
        if self.is_turn(case, 0, 3):
            plain = starter.start("debug", *MACHINES[machine], given=given)
            wanted = b"".join(answers) + (b"" if b"bye\n" in answers else b"bye\n")
            expect(plain.out == wanted, "other answers where no marks stand between")
        if self.is_turn(case, 1, 4):
            typed = b"".join(line + (b"\r\n" if line.endswith(b"\r") else b"\n") for line in lines)
            said = starter.talk(["debug", *MACHINES[machine]], typed + b"quit\n")
            expect(unspoken(said) == b"".join(answers).removesuffix(b"bye\n") + b"bye\n", "other answers on a terminal")

        if self.is_turn(case, 2, 4):
            self.look_at_back(MACHINES[machine], lines, starter)

    @staticmethod
    def look_at_back(words, lines, starter):
        """Behind a step and its way back all is as it was, whatever stands before."""
        before = b"".join(line + b"\n" for line in lines if line.split()[:1] != [b"quit"] and not line.endswith(b"\r"))
        shown = b"regs 0\nregs 1\nmem 0x100 96\nsets 0\nsets 1\n"
        answer = starter.start("debug", *words, given=before + MARK + shown + b"step 0\nback 1\n" + MARK + shown)
        if not is_wanting(answer):
            told = answer.out.removesuffix(b"bye\n").split(MARKED)
            first, second = told[-2], told[-1]
            expect(b"error 7" in first or first.startswith(second), "another state behind a step and its way back")

    @staticmethod
    def parted(lines, out, cores, symbols):
        """The answer to each line up to the session's end, of a form that is that line's."""
        at, answers = 0, []
        for line in lines:
            name = next((word for word in line.split(b" ") if word), b"")
            wanted = refusals(line, cores, symbols)
            refused = re.compile(rb"error (7[0-5])\n").match(out, at)
            if refused and (int(refused[1]) in wanted or 0 not in wanted or name not in (b"run", b"next")):
                expect(int(refused[1]) in wanted, f"error {refused[1].decode()} to {line[:60]}")
                text = refused[0]
            else:
                expect(0 in wanted, f"no refusal to {line[:60]}")
                end = out.find(b"\n" + MARKED, max(0, at - 1))
                text = out[at:] if name == b"quit" else out[at:end + 1]
                expect(re.fullmatch(ANSWERS[name], text), f"an answer of no known form to {line[:60]}")
            at += len(text)
            answers.append(text)
            if text == b"bye\n":
                break
            expect(out.startswith(MARKED, at), f"more than one answer to {line[:60]}")
            at += len(MARKED)
        return answers
