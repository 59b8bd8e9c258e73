"""Sources: `asm`, `run FILE.asm`, `dis FILE.asm`. What `asm` makes is read back."""

import re

import readers
from target import MOST_LISTED, RUN, Target, cases_of, examples, expect, expect_commands, expect_listing, expect_run
from target import expect_texts_again, forms_of, is_wanting, words_of

ALU = "add or adc sbb and sub xor cmp mov test xchg".split()
CONDITIONS = "o no b ae e ne be a s ns p np l ge le g z nz c nc nae nb na nbe pe po nge nl ng nle".split()
R32 = "eax ecx edx ebx esp ebp esi edi".split()
R8 = "al cl dl bl ah ch dh bh".split()
PLAIN = "cdq cwde clc stc cmc nop pause hlt int3 ud2 cpuid lfence mfence sfence xend xtest ret leave".split()
NAMES = "start .next .a .b other count table size x".split()
DIRECTIVES = ["section .text", "section .data", "bits 32", "global start", "org 0x100", "align 4", "align 64", "resb 3"]
FORMS = forms_of("source.forms") + [""]
# The bytes of a long line.
MOST_LONG = 20_000


def memory(draw):
    base, index, name = draw.choice(R32), draw.choice(R32), draw.choice(NAMES)
    return draw.choice([
        f"[{base}]", f"[{base}+{index}*{draw.choice('12483')}]", f"[{index}*{draw.choice('248')}-{draw.randrange(99)}]",
        f"[{name}]", f"[{name}+{base}+4]", f"[{draw.getrandbits(32):#x}]", f"[{base}+{index}]",
    ])


def value(draw):
    name, other = draw.choice(NAMES), draw.choice(NAMES)
    return draw.choice([
        str(draw.randrange(-130, 300)), hex(draw.getrandbits(32)), name, f"{name}-{other}+1", "-0x80000000", "255",
        "256", "127", "128", "-128", "-129", "4294967295", "'a'", "101b", "0ffh",
    ])


def operand(draw):
    size = draw.choice(["", "", "dword ", "byte "])
    return draw.choice([draw.choice(R32), draw.choice(R8), size + memory(draw), value(draw)])


def line(draw):
    """A form with its words filled in."""
    form = draw.choice(FORMS)
    words = {"{n}": NAMES, "{alu}": ALU, "{r}": R32, "{cc}": CONDITIONS, "{plain}": PLAIN, "{directive}": DIRECTIVES}
    made = {"{o}": operand, "{m}": memory, "{v}": value}
    while "{" in form:
        for word in words:
            form = form.replace(word, draw.choice(words[word]))
        for word in made:
            form = form.replace(word, made[word](draw), 1)
    return form


class Sources(Target):
    name = "source"
    tokens = words_of("source.words")

    def seeds(self):
        return examples(".asm") + cases_of("source.txt")

    def made(self, draw):
        """Lines that are drawn, with the labels that they name, so that many a source is taken; or one long line."""
        if draw.randrange(12) == 0:
            text = line(draw)
            return (text + draw.choice([" ", ", ", "+", ""])).encode() * (MOST_LONG // (len(text) + 2)) + b"\n"
        lines = [line(draw) for _ in range(draw.choice([1, 2, 4, 9]))]
        used = [name for name in NAMES if any(re.search(rf"(?<![\w.]){re.escape(name)}\b", it) for it in lines)]
        defined = {it.split(":")[0].split(" equ")[0].strip() for it in lines}
        labels = [f"{name}: {draw.choice(['nop', 'dd 1', ''])}" for name in used if name not in defined]
        return "\n".join(lines + labels if draw.randrange(8) else lines).encode() + b"\n"

    def look(self, case, starter):
        name = starter.write("case.asm", case)
        answer = starter.start("asm", name)
        if answer.err and self.is_turn(case, 3, 2):
            starter.on_terminal(answer)
        if case.startswith((b"image 1 ", b"\x7fELF")):
            return
        if answer.status != 0:
            self.look_at_refused(case, name, answer, starter)
            return
        image = readers.read_image(answer.out)
        expect(readers.image_text(image) == answer.out, "an image text of another form")
        expect(image.code_len <= len(image.content), "more code than bytes")
        if self.is_turn(case, 2, 8):
            starter.again(answer)
        if len(image.content) <= MOST_LISTED:
            self.look_at_taken(case, name, image, answer, starter)

    def look_at_refused(self, case, name, answer, starter):
        """Each command that reads it says the same fault, of a line that there is."""
        fault = answer.fault()
        expect(fault is not None, "status 1 without a fault")
        expect(fault[1] is None or 1 <= fault[1] <= len(readers.lines_of(case)), "a fault of a line that there is not")
        other = starter.start(*[["dis", name], ["run", name, "--in-turn"], ["asm", name, "--list"]][len(case) % 3])
        expect(other.fault() == fault or is_wanting(other) or is_wanting(answer), "other commands tell another fault")

    def look_at_taken(self, case, name, image, answer, starter):
        """What `asm` makes is what `dis`, `asm --list` and `run` have of the source."""
        made = starter.write("made.img", answer.out)
        of_source, of_image = starter.start("dis", name), starter.start("dis", made)
        same = (of_source.out, of_source.status) == (of_image.out, of_image.status)
        expect(same, "another listing of the image than of the source")
        rows = expect_listing(of_image, image.base, image.content[:image.code_len])
        if self.is_turn(case, 0, 3):
            expect_texts_again(starter, rows, image.base)
        if self.is_turn(case, 1, 3):
            look_at_list(name, image, starter)
        if self.is_turn(case, 3, 3):
            one, two = (starter.start("run", file, *RUN, "--trace") for file in (name, made))
            same = (one.status, one.out, one.fault()) == (two.status, two.out, two.fault())
            expect(same, "another run of the image than of the source")
            if one.status == 0:
                expect_run(starter, name)
                expect_commands(starter, name, case)


def look_at_list(name, image, starter):
    """Each line of `asm --list` has the bytes that the image has there."""
    answer = starter.start("asm", name, "--list")
    expect(answer.status == 0, "a source that is taken, but not listed")
    count = 0
    for row in answer.out.split(b"\n")[:-1]:
        found = re.fullmatch(rb"([0-9a-f]{8})  ((?:[0-9a-f]{2})+)(?:  +\S.*)?", row)
        expect(found, "a line of a listing of no known form")
        at, content = int(found[1], 16) - image.base, bytes.fromhex(found[2].decode())
        expect(image.content[at:at + len(content)] == content, "a listing of other bytes than the image's")
        count += len(content)
    expect(count <= len(image.content), "a listing of more bytes than the image has")
