"""Executables: `dis FILE`, `run FILE`, `--why` by their symbols and lines. The file is written and read by code of its own."""

import re
import struct

import forms
import mutations
import readers
from target import MOST_LISTED, Target, examples, expect, expect_commands, expect_fault, expect_listing, expect_loaded
from target import expect_run, expect_texts_again, is_wanting

MAGIC = b"\x7fELF"
# What an executable of this machine begins with, and what its header says where nothing else is asked.
IDENT = MAGIC + b"\1\1\1" + bytes(9)
HEADER = dict(type=2, machine=3, version=1, phentsize=32, shentsize=40)
MEMORY = 1 << 20
R, W, X = 4, 2, 1
LOAD = 1


def segment(address, content, size=None, flags=R | X, kind=LOAD):
    return kind, address, content, len(content) if size is None else size, flags


def elf(segments, symbols=(), entry=None, ident=IDENT, lines=None, **changes):
    """The file of segments, symbols and line numbers: header, table of segments, their bytes, symbols, lines, and sections."""
    head = {**HEADER, **changes}
    at, table, content = 52 + 32 * len(segments), b"", b""
    for kind, address, text, size, flags in segments:
        table += struct.pack("<8I", kind, at + len(content), address, address, len(text), size, flags, 64)
        content += text
    strings, entries = b"\0", b""
    for name, value, info, section in symbols:
        entries += struct.pack("<IIIBBH", len(strings) if name else 0, value, 0, info, 0, section)
        strings += name + b"\0" if name else b""
    sections, symbols_at = b"", at + len(content)
    if symbols:
        strings_at = symbols_at + len(entries)
        rows = [(0, 0, 0, 0, 0), (2, symbols_at, len(entries), 2, 16), (3, strings_at, len(strings), 0, 0)]
        content += entries + strings
        sections = b"".join(struct.pack("<10I", 0, k, 0, 0, o, s, n, 0, 1, e) for k, o, s, n, e in rows)
    names_of = 0
    if lines is not None:
        # The names of these sections, and which of the sections has them.
        names, names_of = b"\0.debug_line\0.shstrtab\0", len(sections) // 40 + 1
        rows = [(1, 1, at + len(content), len(lines)), (13, 3, at + len(content) + len(lines), len(names))]
        content += lines + names
        sections += b"".join(struct.pack("<10I", w, k, 0, 0, o, s, 0, 0, 1, 0) for w, k, o, s in rows)
    entry = (segments[0][1] if segments else 0) if entry is None else entry
    header = struct.pack(
        "<HHIIIIIHHHHHH", head["type"], head["machine"], head["version"], entry, 52,
        at + len(content) if sections else 0, 0, 52,
        head["phentsize"], len(segments), head["shentsize"], len(sections) // 40, names_of,
    )
    return ident + header + table + content + sections


def codes():
    """Some code, of the examples in image text and of odd bytes."""
    images = [readers.read_image(text) for text in examples(".img")]
    odd = [b"\xf4", b"\x90\xf4", b"\xf0\x90\xf4", b"\xcc", b"\x0f", b"\xeb\xfe", b"\xdb\xe3\xf4", bytes(range(64))]
    return [image.content for image in images] + odd


def first_files():
    code = codes()[0]
    symbols = [(b"", 0, 0, 0), (b"start", 0x1000, 2, 1), (b"table", 0x2000, 1, 2), (b"start.next", 0x1006, 0, 1)]
    others = [(b"file.c", 0, 4, 0xFFF1), (b"gone", 7, 0, 0), (b"a" * 200, 0x1001, 2, 1), (b"start", 5, 0, 1)]
    text, data = segment(0x1000, code), segment(0x2000, b"data", 64, R | W)
    yield from (elf([segment(0x1000, it)]) for it in codes())
    yield from (elf([text, data]), elf([text, data], symbols), elf([text], symbols, entry=0x1006))
    yield elf([text, segment(0x3000, b"\x90\xf4"), segment(0x4000, b"", 4096, R | W)], symbols)
    yield elf([text, data], symbols + others)
    yield elf([text, segment(0, b"", 0, R, 0x6474E551), segment(0x1000, b"note", 4, R, 4)])
    yield elf([segment(0x1000, code, 4096, R | W | X)])
    yield from (elf([text, segment(0, b"/lib/ld.so\0", None, R, kind)]) for kind in (2, 3, 6))
    yield from (elf([text], type=kind) for kind in (0, 1, 3, 4, 0xFF00))
    yield from (elf([text], ident=MAGIC + kind + bytes(9)) for kind in (b"\2\1\1", b"\1\2\1", b"\1\1\0"))
    yield from (elf([text], machine=62), elf([text], version=0), elf([text], phentsize=56))
    yield from (elf([text, data], symbols, shentsize=64), elf([]), elf([data]), elf([text], entry=0))
    yield from (elf([text, segment(0x1004, code)]), elf([data, text]), elf([segment(0x800, b"low", 3, R), text]))
    yield from (elf([segment(0x10000, code)]), elf([segment(0xFFFFF00, code)]), elf([segment(0xFFFFFFF0, code)]))
    yield from (elf([segment(0xFFFFFF0, b"\xf4" * 16)]), elf([text, segment(0xFFFFF00, b"far", 3, R)]))
    yield from (elf([text, data], symbols)[:length] for length in (4, 16, 20, 51, 52, 84, 100, 116))


# Names that are hard to show.
EURO = "\u20ac".encode()
NAMES = [
    b"start", b"start.next", b"a" * 60, b"a" * 61, b"a" * 96, b"a" * 97, b"a" * 5000, b"<&>\"'", b"]]>", b"--", b"\\",
    b"a\nb", b"\x1b[31m", b"\x01", b"\x7f", b"\t", b"\r", b"\xff\xfe", EURO * 40, b"a" * 59 + EURO, b"a" * 95 + EURO,
    b"0x10", b"7", b"a+b", b"a-4", b" ", b",", b":", b"eax", "\ufffe".encode(), b"\xed\xa0\x80",
]
# Where two cores conflict, from 100h on, and the word that they change.
CONFLICT, WORD = readers.read_image(examples("conflict.img")[0]).content, 0x1000


def number(value):
    """A number in parts of seven bits, the lowest first (DWARF, "Variable Length Data")."""
    parts = [value & 0x7F]
    while value := value >> 7:
        parts[-1] |= 0x80
        parts.append(value & 0x7F)
    return bytes(parts)


def line_numbers(draw):
    """A table of line numbers in the form of DWARF 4, mostly one that can be read: opcodes that are drawn between its ends."""
    odd = draw.randrange(3) == 0
    address = b"\0\5\2" + struct.pack("<I", draw.choice([0x106, 0, 0xFFFFFFFF, draw.getrandbits(32)]) if odd else 0x100)
    opcodes = [bytes([draw.randrange(13, 256)]), b"\1", b"\2" + number(draw.randrange(9)), b"\3" + number(draw.randrange(40))]
    if odd:
        opcodes += [
            bytes([draw.randrange(13)]), b"\2" + number(draw.getrandbits(draw.randrange(70))), b"\4" + number(draw.randrange(4)),
            b"\3" + number(draw.getrandbits(draw.randrange(70))), address, b"\10", b"\t" + draw.randbytes(2), b"\0\1\1",
            b"\0" + number(draw.randrange(300)) + b"\3b.c\0\0\0\0",
        ]
    program = address + b"".join(draw.choice(opcodes) for _ in range(draw.randrange(30))) + b"\2\30\0\1\1"
    names = draw.choices([b"a.c", b"a.c", b"b" * 300, b"\x1b", b"../c.c"], k=1 + draw.randrange(3) - odd)
    head = bytes([1, 1, 1, 251, 14, 13]) + b"\0\1\1\1\1\0\0\0\1\0\0\1"
    head = mutations.flip(draw, head, [], []) if odd else head
    head += b"dir\0\0" + b"".join(name + b"\0\0\0\0" for name in names) + b"\0"
    rest = struct.pack("<HI", 4, draw.choice([len(head), draw.getrandbits(32)]) if odd else len(head)) + head + program
    return struct.pack("<I", draw.choice([len(rest), len(rest) - 1, draw.getrandbits(32)]) if odd else len(rest)) + rest


def drawn(draw):
    """A file that is mostly taken: code, data, and symbols with names that are hard to show."""
    code = draw.choice([CONFLICT, CONFLICT, draw.choice(codes()), draw.randbytes(draw.randrange(1, 60))])
    segments = [segment(0x100, code)]
    if draw.randrange(3) == 0:
        segments.append(segment(0x100 + len(code) + draw.randrange(64), draw.choice(codes())))
    data = draw.randbytes(draw.randrange(9))
    segments.append(segment(draw.choice([WORD, WORD, 0x800, 0x2000]), data, draw.randrange(9, 200), R | W))
    symbols = [drawn_symbol(draw) for _ in range(draw.randrange(9))]
    lines = line_numbers(draw) if draw.randrange(2) else None
    return elf(segments, symbols, draw.choice([None, None, 0x106, 0x100 + draw.randrange(len(code))]), lines=lines)


def drawn_symbol(draw):
    places = [0x100, 0x106, WORD, WORD + 4, 0x40, 0, draw.randrange(0x100, 0x140), draw.getrandbits(32)]
    kind = draw.choice([0, 1, 2, 2, 2, 3, 4, 18, 34])
    return draw.choice(NAMES), draw.choice(places), kind, draw.choice([1, 1, 1, 0, 0xFFF1])


# Where the numbers of a header, of a segment, of a section and of a symbol stand, and how many bytes each has.
HEADER_FIELDS = [(4, 1), (5, 1), (6, 1), (16, 2), (18, 2), (20, 4), (24, 4), (28, 4), (32, 4)]
HEADER_FIELDS += [(42, 2), (44, 2), (46, 2), (48, 2)]
SEGMENT_FIELDS = [(0, 4), (4, 4), (8, 4), (16, 4), (20, 4), (24, 4)]
SECTION_FIELDS = [(4, 4), (16, 4), (20, 4), (24, 4), (36, 4)]
SYMBOL_FIELDS = [(0, 4), (4, 4), (12, 1), (14, 2)]


def change_field(draw, case, others, tokens):
    """A number of a header gets another value: one at a limit, one of another place, or one near to what it was."""
    fields = readers.Fields(case)
    tables = [(0, HEADER_FIELDS, 1, 1), (fields.word(28), SEGMENT_FIELDS, 32, fields.half(44))]
    tables += [(fields.word(32), SECTION_FIELDS, 40, fields.half(48)), (fields.section(1)[1], SYMBOL_FIELDS, 16, 8)]
    first, places, size, count = draw.choice(tables)
    place, width = draw.choice(places)
    at = first + size * draw.randrange(max(1, min(count, 9))) + place
    if at + width > len(case):
        return mutations.flip(draw, case, others, tokens)
    old = int.from_bytes(case[at:at + width], "little")
    near = draw.choice([old + 1, old - 1, old * 2, old ^ 1 << draw.randrange(8 * width), len(case), len(case) - old])
    value = draw.choice([near, near, mutations.a_number(draw), fields.word(4 * draw.randrange(len(case) // 4 + 1))])
    return case[:at] + (value % 256**width).to_bytes(width, "little") + case[at + width:]


class Executables(Target):
    name = "elf"
    changes = [change_field] * 12 + mutations.BINARY

    def seeds(self):
        return list(first_files())

    def made(self, draw):
        return drawn(draw)

    def changed(self, draw, case, others):
        case = super().changed(draw, case, others)
        return case if draw.randrange(20) == 0 else MAGIC + case[4:]

    def look(self, case, starter):
        name = starter.write("case.elf", case)
        if self.is_turn(case, 5, 6):
            # It is a source then, and mostly none that is taken.
            answer = starter.start("asm", name)
            starter.on_terminal(answer)
        if not case.startswith(MAGIC):
            starter.start("dis", name)
            return
        try:
            read = readers.read_elf(case)
        except readers.Refused as refused:
            self.look_at_refused(case, name, refused.fault, starter)
            return
        self.look_at_code(case, name, read, starter)
        self.look_at_run(case, name, read, starter)

    def look_at_code(self, case, name, read, starter):
        if read.code_len > MOST_LISTED or read.content is None:
            return
        answer = starter.start("dis", name)
        rows = expect_listing(answer, read.base, read.content[:read.code_len])
        if self.is_turn(case, 0, 4):
            expect_texts_again(starter, rows, read.base)
        if self.is_turn(case, 1, 3):
            labelled = starter.start("dis", name, "--labels")
            code = read.content[:read.code_len]
            expect(is_labelled(labelled.out, answer.out, rows, read.symbols, code, read.base), "other labels than the file has")
        if self.is_turn(case, 2, 8):
            starter.again(answer)

    def look_at_run(self, case, name, read, starter):
        fault = readers.loading_fault(read, read.size, [read.entry], MEMORY, read.end)
        if fault:
            expect_fault(starter.start("run", name, "--steps", "", "--mem", str(MEMORY)), (fault, None))
            return
        answer = expect_loaded(starter, name, read, read.content, MEMORY, read.end)
        expect(is_wanting(answer) or b"eip=%08x" % read.entry in answer.out, "another place to begin than the entry")
        if self.is_turn(case, 3, 2) and readers.loading_fault(read, read.size, [read.entry], 65536, read.end) is None:
            expect_run(starter, name)
            expect_commands(starter, name, case)
        if self.is_turn(case, 4, 3):
            look_at_symbols(name, read, starter)


# The bytes of a name that are shown by a letter.
LETTERS = {9: b"\\t", 10: b"\\n", 13: b"\\r", 92: b"\\\\"}


def shown(word):
    """A name as it is shown: with C's escapes (docs/FORMATS.md, "Names of symbols")."""
    return b"".join(bytes([it]) if 33 <= it <= 126 and it != 92 else LETTERS.get(it, b"\\%03o" % it) for it in word)


FOREIGN = re.compile(rb"([0-9a-f]{8})  ((?:[0-9a-f]{2})+) *  db 0x\S+(?:, 0x\S+)*  ; \S.*")


def is_labelled(labelled, plain, rows, symbols, code, base):
    """The lines of the listing have the code's bytes, one behind the other, and above each are the names of the symbols at its
    address. A line is that of the listing without labels, where that has one there, or tells what is outside of the subset."""
    lines = {row[0]: line for row, line in zip(rows, plain.split(b"\n"))}
    names = {}
    for word, value in symbols:
        names.setdefault(value, []).append(shown(word) + b":")
    at, above = base, []
    for line in labelled.split(b"\n")[:-1]:
        listed = forms.LISTED.fullmatch(line) or FOREIGN.fullmatch(line)
        if not listed:
            above.append(line)
            continue
        told = bytes.fromhex(listed[2].decode())
        is_foreign = FOREIGN.fullmatch(line) is not None
        if int(listed[1], 16) != at % 2**32 or told != code[at - base:at - base + len(told)] or above != names.get(at % 2**32, []):
            return False
        if not is_foreign and lines.get(at % 2**32, line) != line:
            return False
        if is_foreign and any((at + k) % 2**32 in names for k in range(1, len(told))):
            return False
        at, above = at + len(told), []
    return at - base == len(code) and not above


def look_at_symbols(name, read, starter):
    """The first symbols of their names are what `--show` takes."""
    first = {}
    for word, value in read.symbols:
        first.setdefault(word, value)
    words = [word for word in first if word.isascii() and word.decode().replace(".", "_").isidentifier()][:8]
    for word in words[:2]:
        answer = starter.start("run", name, "--steps", "", "--mem", str(MEMORY), "--show", word)
        value = first[word]
        if value + 4 > MEMORY:
            expect_fault(answer, (73, None))
            continue
        there = read.content[value - read.base:value - read.base + 4] if read.base <= value else b""
        if len(there) == 4:
            number = int.from_bytes(there, "little")
            line = b"%s=%08x %d\n" % (word, number, number)
            expect(is_wanting(answer) or line in answer.out, "another doubleword at a symbol")
