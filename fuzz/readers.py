"""Readers of the program's formats, written from docs/FORMATS.md alone: what the program has to say of a text.

A reader gives what the text says, or raises `Refused` with the fault's number and line.
"""

import re
import struct
from collections import namedtuple

# The largest memory, and the most steps of a schedule.
HIGHEST, MOST_STEPS = 268_435_456, 16_777_216

Image = namedtuple("Image", "base content code_len")
# `content` is None where it has more than so many bytes.
Elf = namedtuple("Elf", "base size content code_len entry end symbols")
MOST_CONTENT = 1 << 20
Segment = namedtuple("Segment", "type offset address file_size size flags")
# So many steps of a core, each under this event or under none.
Run = namedtuple("Run", "core event count")


class Refused(Exception):
    """A text that is refused: `fault` is its number and, of a text with lines, the line."""

    def __init__(self, number, line=None):
        super().__init__(number, line)
        self.fault = number, line


def lines_of(text):
    """The lines of a text, without their ends."""
    lines = text.split(b"\n")
    last = lines.pop()
    return [line[:-1] if line.endswith(b"\r") else line for line in lines] + ([last] if last else [])


def number_of(word):
    """The number that a word of a command line writes, or None."""
    for form, base, drop in ((rb"[0-9]+", 10, 0), (rb"0x[0-9a-fA-F]+", 16, 0), (rb"[01]+b", 2, 1),
                             (rb"[0-9][0-9a-fA-F]*h", 16, 1)):
        if re.fullmatch(form, word):
            return int(word[:len(word) - drop], base)
    return None


# ---- image text

def read_image(text):
    lines = lines_of(text)
    first = re.fullmatch(rb"image 1 ([0-9a-fA-F]{1,8}) ([0-9a-fA-F]{1,8})", lines[0]) if lines else None
    if not first:
        raise Refused(27, 1)
    content = b""
    for number, line in enumerate(lines[1:], 2):
        if not re.fullmatch(rb"(?:[0-9a-fA-F]{2})*", line):
            raise Refused(27, number)
        content += bytes.fromhex(line.decode())
    return Image(int(first[1], 16), content, int(first[2], 16))


def image_text(image):
    """The one text that is written of an image."""
    digits = image.content.hex()
    rows = [digits[at:at + 64] for at in range(0, len(digits), 64)]
    return "".join(row + "\n" for row in [f"image 1 {image.base:x} {image.code_len:x}", *rows]).encode()


def loading_fault(program, size, entries, memory, end=0):
    """The fault of loading a program of so many bytes, or None: the first test that it fails."""
    if not size:
        return 20
    if not 1 <= len(entries) <= 64:
        return 23
    if memory % 4096 or memory < 4096 * (len(entries) + 1) or memory > HIGHEST:
        return 22
    if program.base + size > memory:
        return 21
    if program.code_len > size:
        return 25
    if any(not program.base <= entry < program.base + program.code_len for entry in entries):
        return 24
    return 21 if end > memory else None


# ---- executables

class Fields:
    """The numbers of a file."""

    def __init__(self, file):
        self.file = file

    def half(self, at):
        return struct.unpack_from("<H", self.file.ljust(at + 2, b"\0"), at)[0] if at < len(self.file) else 0

    def word(self, at):
        return struct.unpack_from("<I", self.file.ljust(at + 4, b"\0"), at)[0] if at < len(self.file) else 0

    def segment(self, number):
        at = self.word(28) + 32 * number
        kind, offset, address, _, file_size, size, flags = (self.word(at + 4 * field) for field in range(7))
        return Segment(kind, offset, address, file_size, size, flags)

    def section(self, number):
        """Its type, offset, size, link and the size of an entry."""
        at = self.word(32) + 40 * number
        return tuple(self.word(at + place) for place in (4, 16, 20, 24, 36))


def is_whole(fields):
    """The header and the table of segments lie in the file, and so do the segments and the tables of symbols."""
    file, count = fields.file, fields.half(44)
    if len(file) < 52 or file[6] != 1 or fields.word(20) != 1 or (count and fields.half(42) != 32):
        return False
    if fields.word(28) + 32 * count > len(file):
        return False
    segments = [fields.segment(number) for number in range(count)]
    if any(s.file_size > s.size or s.offset + s.file_size > len(file) for s in segments if loads(s)):
        return False
    return symbols_of(fields) is not None


def symbols_of(fields):
    """The names and addresses of the symbols, in their order, or None where a table of them is damaged."""
    file, count = fields.file, fields.half(48)
    if not count:
        return []
    if fields.half(46) != 40 or fields.word(32) + 40 * count > len(file):
        return None
    sections = [fields.section(number) for number in range(count)]
    table = next((section for section in sections if section[0] == 2), None)
    if not table:
        return []
    _, offset, size, link, entry_size = table
    if entry_size != 16 or offset + size > len(file) or size % 16 or link >= count or sections[link][0] != 3:
        return None
    _, strings_offset, strings_size, _, _ = sections[link]
    strings = file[strings_offset:strings_offset + strings_size]
    if strings_offset + strings_size > len(file) or not strings.endswith(b"\0"):
        return None
    return named(file[offset:offset + size], strings)


def named(table, strings):
    found = []
    for name, value, _, info, _, section in struct.iter_unpack("<IIIBBH", table):
        if name >= len(strings):
            return None
        word = strings[name:strings.index(b"\0", name)]
        if info % 16 < 3 and section and word:
            found.append((word, value))
    return found


def loads(segment):
    return segment.type == 1 and segment.size > 0


def read_elf(file):
    fields = Fields(file)
    if len(file) < 20 or file[4:6] != b"\1\1" or fields.half(18) != 3:
        raise Refused(90)
    if not is_whole(fields):
        raise Refused(91)
    segments = [fields.segment(number) for number in range(fields.half(44))]
    if fields.half(16) != 2 or any(s.type in (2, 3) for s in segments):
        raise Refused(92)
    loaded = [s for s in segments if loads(s)]
    filled = [s for s in loaded if s.file_size]
    code = [s for s in filled if s.flags % 2]
    if not code:
        raise Refused(93)
    if any(s.address + s.size > HIGHEST for s in loaded):
        raise Refused(94)
    if any(a.address + a.size > b.address for a, b in zip(loaded, loaded[1:])):
        raise Refused(95)
    code_end = max(s.address + s.file_size for s in code)
    if any(s.address < c.address + c.file_size for c in code for s in filled if not s.flags % 2):
        raise Refused(96)
    base = min(s.address for s in filled)
    size = max(s.address + s.file_size for s in filled) - base
    end = max(s.address + s.size for s in loaded)
    content = content_of(file, filled, base, size) if size <= MOST_CONTENT else None
    return Elf(base, size, content, code_end - base, fields.word(24), end, symbols_of(fields))


def content_of(file, filled, base, size):
    """The bytes of the segments, with zeros between them."""
    content = bytearray(size)
    for s in filled:
        content[s.address - base:s.address - base + s.file_size] = file[s.offset:s.offset + s.file_size]
    return bytes(content)


# ---- schedules

def core_of(word):
    """The number of a core, or None."""
    return int(word) if re.fullmatch(rb"[0-9]{1,3}", word) and int(word) < 256 else None


def run_of(word, has_runs, has_events):
    """The steps that a word says, or None."""
    word, star, count = word.partition(b"*") if has_runs else (word, b"", b"")
    if star and not (re.fullmatch(rb"[0-9]{1,8}", count) and 1 <= int(count) <= MOST_STEPS):
        return None
    event = word[-1:] if has_events and word[-1:] in (b"i", b"e", b"s") else b""
    core = core_of(word[:len(word) - len(event)])
    return None if core is None else Run(core, event, int(count) if star else 1)


def runs_in(lines, first, has_runs, has_events):
    found, total = [], 0
    for number, line in enumerate(lines, first):
        for word in filter(None, line.split(b" ")):
            run = run_of(word, has_runs, has_events)
            if run is None:
                raise Refused(52, number)
            total += run.count
            if has_runs and total > MOST_STEPS:
                raise Refused(56, number)
            found.append(run)
    return found


def read_schedule(text):
    """The runs of steps that the text of a schedule says."""
    lines = lines_of(text)
    title = lines[0] if lines else b""
    if title not in (b"schedule 1", b"schedule 2", b"schedule 3"):
        raise Refused(52, 1)
    return runs_in(lines[1:], 2, title != b"schedule 1", title == b"schedule 3")


def read_steps(text):
    """The runs of steps that `--steps` says."""
    return runs_in(lines_of(text), 1, False, True)


def schedule_text(runs):
    """The one text that is written of a schedule without events."""
    joined = []
    for run in runs:
        if joined and joined[-1][0] == run.core:
            joined[-1][1] += run.count
        else:
            joined.append([run.core, run.count])
    words = [f"{core}*{count}" if count > 1 else str(core) for core, count in joined]
    rows = [" ".join(words[at:at + 16]) for at in range(0, len(words), 16)]
    return "".join(row + "\n" for row in ["schedule 2", *rows]).encode()
