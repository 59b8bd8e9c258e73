"""Command lines: each command's words. A case has a word a line."""

import json
import os
import random
import re
import shlex
import zlib

import forms
import mutations
import readers
from target import Target, cases_of, expect, is_read, words_of
from targets.elf import codes, elf, segment
from targets.schedule import PROGRAM

FILES = {
    "p.asm": PROGRAM,
    "p.img": b"image 1 100 16\nc7f80f000000a10010000040a3001000000f01d5f4f4\n",
    "p.elf": elf([segment(0x1000, codes()[0])], [(b"", 0, 0, 0), (b"start", 0x1000, 2, 1)]),
    "bad.asm": b"start: mov eax, [cuont]\nxned\n",
    "<&>'\".asm": PROGRAM,
    "s.txt": b"schedule 3\n0*4 1*3 0i 1e*2 0 1*9\n",
    "t.asm": PROGRAM + b"; elide: run --in-turn --show count\n; expect: line count=00000003 3\n; elide: hunt --cores 2"
                       b" --check 'count == 6' --runs 9\n; expect: no failure\n",
    # What stands where records and pages go.
    "out.txt": b"what stood there\n",
}
FLAGS = {b"--list", b"--labels", b"--trace", b"--why", b"--expect-halt", b"--in-turn", b"--stats", b"--json", b"--code"}
FLAGS |= {b"--names", b"--stuck"}
OPTIONS = """--list --labels --cores --mem --entry --reads --writes --dump --show --steps --schedule --trace --why
    --expect-halt --in-turn --random --events --seed --limit --record --budget --burst --stats --json --check --stop
    --runs --method --jobs --from --to --core --color --code --words --forbid --names --stuck --page --output --note --title
    --help --version -h -V -- - --x -x""".split()
COMMANDS = "asm dis run threads replay debug gdb hunt outcomes stats draw page test explain help".split()
VALUES = words_of("options.words")
PIECES = [b"=", b"--cores=2", b"--", b"", b"\x80", b"\xff\xfe", b",", b":", b"+", b"@"]
# Words with a slash that may stand: no other file than those of the folder is written to or read.
PLACES = {b"1/4", b"1/2:snoop", b"/dev/full", b"/dev/null", b"/nofolder/x"}
# The most of what would otherwise take long.
BOUNDS = {b"--runs": 200, b"--limit": 3000, b"--budget": 3000, b"--jobs": 40}
# What is asked of commands that go on for long where it is not said how far.
WANTED = {b"outcomes": [b"--limit=2000"], b"hunt": [b"--runs=50", b"--limit=3000"]}
# What the end of a run is told by.
END = (forms.STATE, forms.DUMP, forms.SHOWN)
# What a machine is told by, and the commands that record what they ran.
MACHINE = {b"--cores", b"--mem", b"--entry", b"--reads", b"--writes", b"--dump", b"--show"}
RECORDING = {b"run", b"replay", b"threads", b"stats"}
# Above these the program refuses, so that they may stand.
REFUSED_ABOVE = 2**32 - 1


def bounded(option, value):
    """The value, where it does not ask for very much, or else another."""
    most = BOUNDS.get(option)
    first, dots, last = value.partition(b"..")
    least, greatest = (readers.number_of(word) for word in ((first, last) if dots else (b"0", first)))
    if most is None or None in (least, greatest) or greatest - least <= most or greatest > REFUSED_ABOVE:
        return value
    return b"%d..%d" % (least, least + most) if dots else b"%d" % most


def is_inside(word):
    """Whether a word leads to no file outside of the folder."""
    return b"/" not in word or word in PLACES or re.fullmatch(rb"1/\d+(:[a-z,]*)?", word)


def tame(words):
    """The words, with none that leads out of the folder or asks for very much."""
    tamed, option = [], b""
    for word in words:
        name, equals, value = word.replace(b"\0", b"").rpartition(b"=")
        if not is_inside(name) or not is_inside(value):
            name, value = name.replace(b"/", b"%"), value.replace(b"/", b"%")
        word = name + equals + bounded(name if equals else option, value)
        option = word
        tamed.append(word)
    wanted = WANTED.get(tamed[0], []) if tamed else []
    return tamed + [option for option in wanted if not any(word.startswith(option[:6]) for word in tamed)]


def groups_of(words):
    """The words behind the command in groups: each option with its value, or a word alone."""
    groups, rest = [], list(words)
    while rest:
        word = rest.pop(0)
        is_valued = word.startswith(b"--") and b"=" not in word and word not in FLAGS
        groups.append([word, rest.pop(0)] if is_valued and rest else [word])
    return groups


class Options(Target):
    name = "options"
    tokens = [word.encode() for word in OPTIONS + COMMANDS + list(FILES)] + VALUES + PIECES

    def seeds(self):
        return [b"\n".join(parted(line)) for line in cases_of("options.txt")]

    def made(self, draw):
        command, file = draw.choice(COMMANDS), draw.choice(list(FILES))
        words = [command.encode(), file.encode()]
        for _ in range(draw.randrange(7)):
            option = draw.choice(OPTIONS).encode()
            words += [option] if option in FLAGS or draw.randrange(12) == 0 else [option, draw.choice(VALUES)]
        return b"\n".join(words)

    def changed(self, draw, case, others):
        """A value in place of a word, or any change."""
        if draw.randrange(3):
            return super().changed(draw, case, others)
        words = case.split(b"\n")
        number = mutations.numeral(draw, mutations.a_number(draw))
        words[draw.randrange(len(words))] = draw.choice([draw.choice(VALUES), number])
        return b"\n".join(words)

    def look(self, case, starter):
        clear(starter)
        words = tame(case.split(b"\n") if case else [])
        given = b"step 0\nregs 0\n" if b"debug" in words else b"$?#3f$s#73"
        answer = starter.start(*words, given=given)
        expect(not any(".part" in name for name in os.listdir(starter.folder)), "a part of a record is left behind")
        look_at_written(words, answer, starter)
        if words[:1] == [b"threads"] or len(words) > 60:
            return
        if self.is_turn(case, 0, 3):
            clear(starter)
            starter.again(answer)
        if words[:1] == [b"hunt"] and answer.status == 3:
            look_at_replay(answer, starter)
        if b"--json" in words and answer.out.startswith(b"{"):
            expect(is_read(lambda text: json.loads(text.decode()), answer.out), "no JSON")
        elif words[:1] in ([b"run"], [b"replay"]) and not answer.out.startswith(b"Runs "):
            lines = answer.out.split(b"\n")[:-1]
            expect(all(any(form.fullmatch(line) for form in forms.RAN) for line in lines), "a line of no known form")
        if answer.err and self.is_turn(case, 2, 3) and b"hunt" not in words:
            clear(starter)
            starter.on_terminal(answer)
        if b"--color" not in case and self.is_turn(case, 4, 4):
            look_at_paint(words, answer, given, starter)
        if answer.status in (0, 3) and self.is_turn(case, 1, 2) and b"--record" not in case:
            self.look_at_order(case, words, answer, given, starter)

    @staticmethod
    def look_at_order(case, words, answer, given, starter):
        """The same options in another order, some with `=` before their values, say the same."""
        groups = groups_of(words[1:])
        names = [group[0].split(b"=")[0] for group in groups]
        if len(set(names)) < len(names) or any(is_short_or_help(name) for name in names) or words[0] == b"help":
            return
        draw = random.Random(zlib.crc32(case))
        draw.shuffle(groups)
        others = [[b"=".join(group)] if len(group) == 2 and draw.randrange(2) else group for group in groups]
        clear(starter)
        again = starter.start(words[0], *[word for group in others for word in group], given=given)
        expect(again.said() == answer.said(), "another answer where the options stand in another order")


def look_at_written(words, answer, starter):
    """What stood where a record goes stays where a command is refused; a record is read back, and the same run is made of it."""
    written, told = starter.read("out.txt"), answer.fault()
    if written == FILES["out.txt"]:
        return
    # What was to be printed may fail behind the record; of a page the outcome that it shows is found first.
    expect(answer.status in (0, 3) or told and told[0] == 5, "something is written beside a refusal")
    if words[0] not in RECORDING or answer.status != 0 or written.startswith(b"<!DOCTYPE"):
        return
    steps = readers.read_schedule(written)
    runs = [group for group in groups_of(words[1:]) if not group[0].startswith(b"-") or group[0].split(b"=")[0] in MACHINE]
    again = starter.start(b"run", *[word for group in runs for word in group], b"--schedule", b"out.txt", b"--record", b"again.txt")
    expect(again.status == 0, "a record that is not run")
    expect(readers.read_schedule(starter.read("again.txt")) == steps, "a record of a record that has other steps")
    if words[0] != b"stats" and not {b"--stats", b"--json"} & set(words):
        ends = [[line for line in it.out.split(b"\n") if any(form.fullmatch(line) for form in END)] for it in (answer, again)]
        expect(ends[0] == ends[1], "another end of a record's run")


def look_at_replay(answer, starter):
    """The command that `hunt` ends with replays the schedule."""
    last = answer.out.decode().split("\n")[-2]
    if last.startswith("elide replay "):
        replayed = starter.start(*shlex.split(last)[1:])
        expect(replayed.status == 0 and replayed.out.endswith(b"\nagree\n"), "a command of hunt's that does not replay")


def look_at_paint(words, answer, given, starter):
    """What is painted has the same text."""
    clear(starter)
    painted = starter.start(*words, "--color", "always", given=given)
    same = answer.status, answer.out, answer.err
    is_other = b"--" in words or answer.status == 2 or words[:1] in ([], [b"help"])
    plain = painted.status, forms.PAINT.sub(b"", painted.out), forms.PAINT.sub(b"", painted.err)
    expect(is_other or plain == same, "another text where it is painted")


def is_short_or_help(name):
    """A word that ends the options, or asks for help wherever it stands."""
    return name in (b"--", b"--help", b"--version") or re.match(rb"-(?:[^-]|$)", name)


def parted(line):
    """The words of a line, between spaces, in quotes where they have some themselves."""
    return [word.strip(b"'") for word in re.findall(rb"'[^']*'|\S+", line)]


def clear(starter):
    """Makes the folder what it is before each start."""
    for name in os.listdir(starter.folder):
        if name not in FILES and os.path.isfile(starter.path(name)):
            os.unlink(starter.path(name))
    for name, content in FILES.items():
        starter.write(name, content)
