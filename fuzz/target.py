"""What the targets have in common: their corpora, and what is asked of a program whatever its file."""

import json
import os
import re
import xml.etree.ElementTree
import zlib

import forms
import mutations
from starts import Finding

HERE = os.path.dirname(os.path.realpath(__file__))
ESCAPE = re.compile(rb"\\(?:x([0-9a-fA-F]{2})|(.))")
ESCAPES = {b"n": b"\n", b"r": b"\r", b"t": b"\t", b"\\": b"\\"}
# The most bytes of code that are listed, and of memory that are looked at.
MOST_LISTED, MOST_DUMPED = 20_000, 4096


def lines_in(name):
    """The lines of a text of the corpus but for empty ones and those that begin with `#`."""
    with open(os.path.join(HERE, "corpus", name), "rb") as file:
        return [line for line in file.read().splitlines() if line and not line.startswith(b"#")]


def unescaped(line):
    return ESCAPE.sub(lambda found: bytes([int(found[1], 16)]) if found[1] else ESCAPES[found[2]], line)


def cases_of(name):
    """The cases of a text of the corpus: one a line, with escapes as in C."""
    return [unescaped(line) for line in lines_in(name)]


def words_of(name):
    """The words of a text of the corpus, with escapes as in C."""
    return [unescaped(word) for line in lines_in(name) for word in line.split()]


def forms_of(name):
    """The lines of a text of the corpus."""
    return [line.decode() for line in lines_in(name)]


def examples(*suffixes):
    """The content of the examples whose names end so."""
    found = []
    for folder, _, names in sorted(os.walk(os.path.join(HERE, "..", "examples"))):
        for name in sorted(names):
            if name.endswith(suffixes):
                with open(os.path.join(folder, name), "rb") as file:
                    found.append(file.read())
    return found


class Target:
    """A reader of the program, and what is asked of it."""

    # Its name, the words of its format, and how a case is changed.
    name, tokens, changes = "", [b" "], mutations.TEXT
    # Whether each question is asked of each case, not of some alone: so while a finding is made smaller.
    asks_all = False

    def seeds(self):
        """The first cases."""
        raise NotImplementedError

    def made(self, draw):
        """A case that is no change of another, or None."""
        return None

    def look(self, case, starter):
        """Asks all that is to be asked of a case; what ought not to be is a `Finding`."""
        raise NotImplementedError

    def changed(self, draw, case, others):
        return mutations.changed(draw, case, others, self.tokens, self.changes)

    def look_at_refused(self, case, name, fault, starter):
        """Commands that read a program tell this fault of it, on a terminal, too."""
        for words in (["dis", name], ["run", name, "--in-turn"]):
            answer = starter.start(*words)
            expect_fault(answer, fault)
        if self.is_turn(case, 2, 4):
            starter.on_terminal(answer)

    def is_turn(self, case, which, of):
        """Whether a question is asked of this case that is asked of one in so many."""
        return self.asks_all or zlib.crc32(case) // 7 ** which % of == 0


def expect(is_right, what):
    if not is_right:
        raise Finding(what)


def expect_fault(answer, fault):
    """The answer is this fault, or says that the system gave something out."""
    told = answer.fault()
    if told and told[0] in forms.WANT:
        return
    expect(told == fault, f"fault {told} where {fault} is expected")


def is_wanting(answer):
    """Whether the answer says that the system gave something out."""
    told = answer.fault()
    return bool(told) and told[0] in forms.WANT


def listing_in(answer):
    """The rows of a listing: the address, the bytes and the text of each; lines of labels are left out."""
    rows = []
    for line in answer.out.split(b"\n")[:-1]:
        found = forms.LISTED.fullmatch(line)
        if found:
            rows.append((int(found[1], 16), bytes.fromhex(found[2].decode()), found[3]))
        else:
            expect(line.endswith(b":"), "a line of a listing of no known form")
    return rows


def expect_listing(answer, base, code):
    """The listing has all of the code in its order."""
    at = base
    rows = listing_in(answer)
    for address, content, text in rows:
        expect(address == at % 2**32 and text, "a listing with a gap")
        at += len(content)
    expect(b"".join(row[1] for row in rows) == code, "a listing of other bytes")
    return rows


def expect_texts_again(starter, rows, base):
    """What `dis` prints is read by `asm` as the same instructions, where none of it is `db`."""
    texts = [text for _, _, text in rows]
    if not texts or any(text.startswith(b"db ") for text in texts):
        return
    starter.write("again.asm", b"".join(line + b"\n" for line in [b"org %d" % base, *texts]))
    answer = starter.start("dis", "again.asm")
    # A short jump may lead too far where other spellings are longer, and the end may lie too high.
    if not answer.fault() or answer.fault()[0] not in (14, 16):
        expect(answer.status == 0, "a listing's text that is not read")
        expect([row[2] for row in listing_in(answer)] == texts, "a listing's text that is read as another")


def expect_loaded(starter, name, program, content, memory, end, at_most=MOST_DUMPED):
    """A machine that makes no step has the program's bytes in its memory, and zeros behind them."""
    first, last = program.base, min(memory, end + 16, program.base + at_most)
    answer = starter.start("run", name, "--mem", str(memory), "--steps", "", "--dump", f"{first}:{last - first}")
    if is_wanting(answer):
        return answer
    expect(answer.status == 0, "a program that is not loaded")
    dumps = [line[9:].decode() for line in answer.out.split(b"\n") if forms.DUMP.fullmatch(line)]
    wanted = content.ljust(last - first, b"\0")[:last - first]
    expect(bytes.fromhex("".join(dumps)) == wanted, "other bytes in memory than in the file")
    return answer


# What each command that runs a program is asked of one. What `draw` and `--json` say is XML and JSON.
ASKED = [
    ("replay", "--cores", "3", "--random", "3", "--limit", "300", "--why"),
    ("replay", "--cores", "2", "--in-turn", "--limit", "300", "--events", "1/5:interrupt,eviction,snoop"),
    ("stats", "--cores", "3", "--random", "5", "--limit", "300"),
    ("stats", "--cores", "2", "--random", "1", "--limit", "300", "--json"),
    ("stats", "--cores", "2", "--in-turn", "--limit", "300", "--json", "--reads", "1", "--writes", "1"),
    ("draw", "--cores", "3", "--random", "2", "--limit", "300"),
    ("draw", "--cores", "2", "--random", "1", "--limit", "300", "--to", "30"),
    ("hunt", "--cores", "2", "--runs", "5", "--limit", "200", "--stop", "#GP", "--jobs", "1", "--events", "draw"),
    ("outcomes", "--cores", "2", "--limit", "200", "--show", "eax@0 0x100"),
    ("threads", "--cores", "2", "--budget", "200", "--why"),
    ("threads", "--cores", "2", "--budget", "200", "--stats", "--json"),
    ("outcomes", "--cores", "2", "--limit", "200", "--check", "eax@0 == 1", "--stuck", "--events", "interrupt,snoop"),
    ("page", "--cores", "2", "--random", "6", "--limit", "100", "--show", "0x100"),
    ("run", "--cores", "2", "--random", "2", "--limit", "200", "--trace", "--code", "--why"),
    ("run", "--cores", "2", "--random", "2", "--limit", "200", "--json", "--trace"),
    ("debug", "--cores", "2", "--random", "4", "--limit", "90"),
    ("gdb", "--cores", "2", "--in-turn", "--limit", "90"),
]
GIVEN = {
    "debug": b"run 7\nwhy 0\nwhy 1\nsets 0\nback 3\nnext 50\nregs 0\nlist 0x100 9\nback 20\n",
    "gdb": b"$?#3f$g#67$c#63$bs#d5$qRcmd,776879#31$qRcmd,686973746f7279#f3$bc#c5$m100,40#f1",
}


def expect_commands(starter, name, case):
    """Each command that runs a program has an answer to it: one of them is asked, by the case."""
    words = ASKED[zlib.crc32(case) % len(ASKED)]
    answer = starter.start(words[0], name, *words[1:], given=GIVEN.get(words[0], b""))
    if is_wanting(answer):
        return
    expect(answer.status in (0, 3), "a program that one command runs, and another refuses")
    lines = answer.out.split(b"\n")[:-1]
    if "--json" in words:
        expect(is_read(lambda text: json.loads(text.decode()), answer.out), "no JSON")
    elif words[0] == "page":
        found = re.search(rb'<script type="application/json" id="run">(.*?)</script>', answer.out, re.DOTALL)
        expect(found and is_read(lambda text: json.loads(text.decode()), found[1]), "a page without its run as JSON")
    elif words[0] == "draw":
        expect(is_read(xml.etree.ElementTree.fromstring, answer.out), "no XML")
    elif words[0] == "stats":
        expect(all(forms.COUNTS.fullmatch(line) for line in lines), "a row of counts of no known form")
        steps = counts_of(lines[0])
        expect(steps[0] == sum(steps[1:]), "counts of steps that are not all of them")
    elif words[0] == "outcomes":
        expect(all(forms.OUTCOMES.fullmatch(line) for line in lines), "an outcome of no known form")
        if "--show" in words:
            expect_outcome(starter, name, lines)


def expect_outcome(starter, name, lines):
    """The schedule that is told of an outcome leads to it: of `eax@0 0x100`."""
    if len(lines) < 2:
        return
    found = re.fullmatch(rb"([0-9a-f]{8}) ([0-9a-f]{8})  \d+ (.*)", lines[len(lines) // 2 - 1])
    answer = starter.start("run", name, "--cores", "2", "--show", "0x100", "--steps", found[3].decode())
    core = answer.out.split(b"\n")[0]
    expect(core.startswith(b"core 0 stop:") and b" eax=" + found[1] in core, "another outcome of a register")
    expect(b"0x100=" + found[2] in answer.out, "another outcome of memory")


def counts_of(line):
    """The numbers of a line."""
    return [int(number) for number in re.findall(rb"\d+", line)]


def is_text(word):
    """Whether bytes are UTF-8."""
    return is_read(bytes.decode, word)


def is_read(read, text):
    """Whether a text is of a form."""
    try:
        read(text)
    except (ValueError, SyntaxError):
        return False
    return True


RUN = ("--in-turn", "--limit", "400", "--cores", "2")


def expect_run(starter, name):
    """A run of a program says the same whatever the order of its options."""
    one = starter.start("run", name, *RUN, "--trace", "--why")
    two = starter.start("run", "--why", *RUN[3:], "--trace", *RUN[:3], name)
    expect(one.said() == two.said(), "another answer where the options stand in another order")
    for line in one.out.split(b"\n")[:-1]:
        expect(forms.STATE.fullmatch(line) or forms.OUTCOME.fullmatch(line), "a line of a run of no known form")
    return one
