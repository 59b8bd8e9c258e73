"""The forms of what the program says (docs/FAULTS.md, docs/FORMATS.md)."""

import os
import re

HERE = os.path.dirname(os.path.realpath(__file__))
# The faults that tell a line of a text.
WITH_LINE = {10, 11, 12, 13, 14, 15, 16, 27, 52, 56}
# The faults that say that the system gave something out: memory or threads.
WANT = {17, 26, 41, 43, 51, 54, 60, 61, 78, 83, 97}
# The faults that no command tells, but only the library or a session on standard output.
UNTOLD = {1, 2, 3, 50, 53, 70, 71, 72, 74, 75}

FAULT = re.compile(rb"fault (\d+) (\w+)(?: line (\d+))?\n")
USAGE = re.compile(rb"usage: (--[a-z-]+|FAULT|FILE)\n")
# A run that a search found is too long for its page.
UNPAGED = b"fault 85 PageTooLong\n"
MISUSE = re.compile(rb"error: .*\n", re.DOTALL)
WARNING = re.compile(rb"warning line \d+: label '[\w.]+' alone on a line without a colon\n")
PAINT = re.compile(rb"\x1b\[[0-9;]*m")

WORDS = rb"#DE|#BP|#UD|#GP|HLT|range|code-store|fetch|not-in-subset"
STATE = re.compile(
    rb"core \d+ (?:run|mid|tx\d|condemned|stop:(?:" + WORDS + rb"))"
    rb" eax=[0-9a-f]{8} ecx=[0-9a-f]{8} edx=[0-9a-f]{8} ebx=[0-9a-f]{8} esp=[0-9a-f]{8} ebp=[0-9a-f]{8}"
    rb" esi=[0-9a-f]{8} edi=[0-9a-f]{8} eip=[0-9a-f]{8} flags=[0-9a-f]{3}"
)
OUTCOME = re.compile(
    rb"\d+ (?:plain|loaded|stopped (?:" + WORDS + rb")(?:: .+)?|idle|begun|inside|committed"
    rb"|aborted [0-9a-f]{8}(?: .+)?)", re.DOTALL,
)
# The same with `--code`: the address, and what stood and was done there.
TOLD = re.compile(
    rb"\d+ (?:plain|loaded|stopped (?:" + WORDS + rb")|idle|begun|inside|committed"
    rb"|aborted [0-9a-f]{8}(?: (?:interrupt|eviction|snoop))?) [0-9a-f]{8}(?: .+)?", re.DOTALL,
)
DUMP = re.compile(rb"[0-9a-f]{8} (?:[0-9a-f]{2}){1,16}")
SHOWN = re.compile(rb".+=[0-9a-f]{8} \d+")
LISTED = re.compile(rb"([0-9a-f]{8})  ((?:[0-9a-f]{2}){1,15}) *(?:  (\S.*))?")
# A row of `stats`: no name has a space, so that there are as many columns as are wanted.
COUNTS = re.compile(
    rb"steps \d+ outside \d+ committed \d+ aborted \d+ open \d+ idle \d+"
    rb"|transaction [0-9a-f]{8} begun \d+ committed \d+ aborted \d+ lost \d+ \S+"
    rb"|abort [0-9a-f]{8} (?:conflict|read-capacity|write-capacity|nest|xabort:[0-9a-f]{2}|INT3|not-allowed"
    rb"|interrupt|eviction|snoop|" + WORDS + rb") \d+"
    rb"|size [0-9a-f]{8} (?:steps|read-lines|write-lines) \d+ \d+ \d+"
    rb"|line [0-9a-f]{8} doomed \d+ \S+"
    rb"|hit [0-9a-f]{8} (?:write|read) [0-9a-f]{8} [0-9a-f]{8} \d+ \S+ \S+ (?:true|false)-sharing"
)
# A line of `outcomes`.
OUTCOMES = re.compile(
    rb"(?:[0-9a-f]{8} )+ \d+ (?: \d+[ies]?)*"
    rb"|stop  (?:" + WORDS + rb") (?: \d+[ies]?)*|stuck  \d+ (?: \d+[ies]?)*|(?:check|forbid)  .+ (?: \d+[ies]?)*"
    rb"|cycle  \d+ (?: \d+[ies]?)* \|(?: \d+[ies]?)+"
    rb"|(?:\d+ outcomes? in )?\d+ states(?:: cut at the limit, there may be more|, \d+ of them without a way to an end)?"
)
CONTROL = re.compile(rb"[\x00-\x09\x0b-\x1f\x7f]")
NOT_STOPPED = re.compile(rb"core \d+ has not stopped: eip=[0-9a-f]{8}")
# What `run` and `replay` print.
RAN = (STATE, OUTCOME, TOLD, DUMP, SHOWN, NOT_STOPPED, re.compile(rb"agree"))


def names_of_faults():
    """The names of the faults by their numbers, as docs/FAULTS.md has them."""
    with open(os.path.join(HERE, "..", "docs", "FAULTS.md"), encoding="utf-8") as file:
        return {int(n): name.encode() for n, name in re.findall(r"^## (\d+) (\w+)$", file.read(), re.MULTILINE)}


NAMES = names_of_faults()


def without_warnings(err):
    at = 0
    while found := WARNING.match(err, at):
        at = found.end()
    return err[at:]


def without_words(words, told):
    """The line that tells what is refused, where words behind it are asked for."""
    if not any(b"--words" in os.fsencode(word) for word in words):
        return told
    line = told[:told.find(b"\n") + 1]
    return line if FAULT.fullmatch(line) or USAGE.fullmatch(line) else told


def fault_in(words, err):
    found = FAULT.fullmatch(without_words(words, without_warnings(PAINT.sub(b"", err))))
    return (int(found[1]), int(found[3]) if found[3] else None) if found else None


def is_painted(words):
    return any(b"color" in (word if isinstance(word, bytes) else word.encode()) for word in words)


def what_is_wrong(answer):
    """What of an answer is of no form that there is, or None."""
    if not 0 <= answer.status <= 3:
        return f"ended by signal {-answer.status}" if answer.status < 0 else f"status {answer.status}"
    out, err = answer.out, answer.err
    if is_painted(answer.words):
        out, err = PAINT.sub(b"", out), PAINT.sub(b"", err)
    # A string of JSON may have DEL as it is (RFC 8259, section 7).
    kept = out.replace(b"\x7f", b"") if {"--json", b"--json"} & set(answer.words) else out
    if CONTROL.search(kept) and answer.words[0] not in ("gdb", b"gdb"):
        return "control characters on standard output"
    told = without_words(answer.words, without_warnings(err))
    if answer.status in (0, 3):
        return "words on standard error beside a status of 0 or 3" if told and told != UNPAGED else None
    if answer.status == 2:
        if not USAGE.fullmatch(told) and not MISUSE.fullmatch(told):
            return "status 2 without a word of misuse"
        # What a search found is printed before it is known that there is no such outcome.
        return "standard output beside a misuse" if answer.out and told != b"usage: --page\n" else None
    return what_is_wrong_with_a_fault(answer, told)


def what_is_wrong_with_a_fault(answer, told):
    found = FAULT.fullmatch(told)
    if not found:
        return "status 1 without a fault's line"
    number = int(found[1])
    if NAMES.get(number) != found[2]:
        return "a fault of another name"
    if number in UNTOLD:
        return f"fault {number} of the library"
    if (found[3] is not None) != (number in WITH_LINE):
        return f"fault {number} with or without a line"
    if answer.out and os.fsencode(answer.words[0]) not in (b"debug", b"gdb", b"test") and number not in (5, 77, 81):
        return "standard output beside a fault"
    return None


# ---- kinds: what is new in an answer

COMMANDS = b"asm dis run threads replay debug gdb hunt outcomes stats draw page test explain help".split()
NUMBER = re.compile(rb"0x[0-9a-fA-F]+|\b[0-9a-f]{8,}\b|\d+")
REGISTER = re.compile(rb"\b(?:e?(?:ax|cx|dx|bx)|e(?:sp|bp|si|di)|[abcd][lh])\b")


def kind_of_line(line):
    """A line without its numbers, registers and names."""
    state = re.match(rb"core \d+ ([^ \d]+)\d? eax=", line)
    if state:
        return b"state " + state[1]
    if DUMP.fullmatch(line) or re.fullmatch(rb"[0-9a-f]{2,}", line):
        return b"bytes"
    if SHOWN.fullmatch(line):
        return b"shown"
    listed = LISTED.fullmatch(line)
    if listed:
        line = b"listed " + (listed[3] or b"")
    line = re.sub(rb"\(.*?\)|<.*?>|'.*?'", b"()", line)
    return re.sub(rb"(?:# +)+", b"# ", NUMBER.sub(b"#", REGISTER.sub(b"r", line)))[:60]


def kinds(answer):
    """The kinds of an answer: its status with what was refused, and its lines."""
    told = without_warnings(PAINT.sub(b"", answer.err))
    command = os.fsencode(answer.words[0]) if answer.words else b""
    command = command if command in COMMANDS else b""
    refused = re.sub(rb"'.*?'|\d{3,}| line \d+", b"", told.split(b"\n")[0])[:60]
    found = {(command, answer.status, refused)}
    # What `threads` prints is not the same each time.
    if command not in (b"gdb", b"threads"):
        found |= {(command, kind_of_line(line)) for line in answer.out.split(b"\n", 400)[:400]}
    if told != answer.err:
        found.add((command, b"warned"))
    return found
