"""Changes of bytes: bits, lengths, splices, words of a format, and numbers at limits."""

import re

# The most bytes of a case.
MOST = 20_000
NUMBERS = [
    0, 1, 2, 3, 7, 8, 15, 16, 31, 32, 63, 64, 65, 127, 128, 255, 256, 257, 512, 1000, 4095, 4096, 4097, 8192,
    32767, 32768, 65535, 65536, 65537, 100000, 100001, 1000000, 16777215, 16777216, 16777217, 268435455, 268435456,
    268435457, 2**31 - 1, 2**31, 2**32 - 4096, 2**32 - 2, 2**32 - 1, 2**32, 2**32 + 1, 2**63 - 1, 2**63, 2**64 - 1,
    2**64, 10**30,
]
NUMERAL = re.compile(rb"0x[0-9a-fA-F]+|[0-9][0-9a-fA-F]*h\b|\d+")


def a_number(draw):
    """A number at a limit, or near one."""
    return max(0, draw.choice(NUMBERS) + draw.choice([0, 0, 0, -1, 1]))


def numeral(draw, value):
    """A number as texts write it."""
    return draw.choice(["{}", "{}", "{:#x}", "0{:x}h", "{:x}", "-{}", "{:b}b"]).format(value).encode()


def flip(draw, case, others, tokens):
    at = draw.randrange(len(case)) if case else 0
    return case[:at] + bytes([case[at] ^ 1 << draw.randrange(8)]) + case[at + 1:] if case else b"\0"


def set_byte(draw, case, others, tokens):
    at = draw.randrange(len(case) + 1)
    value = draw.choice([0, 1, 9, 10, 13, 32, 127, 128, 255, draw.randrange(256)])
    return case[:at] + bytes([value]) + case[at + draw.randrange(2):]


def cut(draw, case, others, tokens):
    first, last = part(draw, case)
    return case[:first] + case[last:]


def cut_end(draw, case, others, tokens):
    return case[:draw.randrange(len(case) + 1)]


def double(draw, case, others, tokens):
    first, last = part(draw, case)
    return case[:last] + case[first:last] * draw.choice([1, 1, 2, 7, 64, 300]) + case[last:]


def move(draw, case, others, tokens):
    first, last = part(draw, case)
    rest = case[:first] + case[last:]
    at = draw.randrange(len(rest) + 1)
    return rest[:at] + case[first:last] + rest[at:]


def splice(draw, case, others, tokens):
    other = draw.choice(others)
    first, last = part(draw, other)
    start, end = part(draw, case)
    return case[:start] + other[first:last] + case[draw.choice([start, end]):]


def add_token(draw, case, others, tokens):
    at = draw.randrange(len(case) + 1)
    return case[:at] + draw.choice(tokens) + case[at:]


def put_token(draw, case, others, tokens):
    """A token in place of a word."""
    words = list(re.finditer(rb"[^\s,:;]+", case))
    if not words:
        return add_token(draw, case, others, tokens)
    word = draw.choice(words)
    return case[:word.start()] + draw.choice(tokens) + case[word.end():]


def change_number(draw, case, others, tokens):
    found = list(NUMERAL.finditer(case))
    if not found:
        return add_token(draw, case, others, tokens)
    number = draw.choice(found)
    return case[:number.start()] + numeral(draw, a_number(draw)) + case[number.end():]


def swap_lines(draw, case, others, tokens):
    lines = case.split(b"\n")
    a, b = draw.randrange(len(lines)), draw.randrange(len(lines))
    lines[a], lines[b] = lines[b], lines[a]
    return b"\n".join(lines)


def put_line(draw, case, others, tokens):
    """A line of another case in place of one, or beside it."""
    lines, theirs = case.split(b"\n"), draw.choice(others).split(b"\n")
    at = draw.randrange(len(lines))
    lines[at:at + draw.randrange(2)] = [draw.choice(theirs)]
    return b"\n".join(lines)


def part(draw, case):
    """Where a part begins and ends, mostly a short one."""
    first = draw.randrange(len(case) + 1)
    return first, min(len(case), first + draw.choice([1, 1, 2, 4, 8, 16, 64, 400]))


BINARY = [flip, flip, set_byte, cut, cut_end, double, move, splice]
TEXT = BINARY + [add_token, put_token, put_token, change_number, change_number, swap_lines, put_line, put_line]


def changed(draw, case, others, tokens, changes=TEXT):
    """A case with one change or a few."""
    for _ in range(draw.choice([1, 1, 1, 2, 2, 3, 5])):
        case = draw.choice(changes)(draw, case, others, tokens)[:MOST]
    return case
