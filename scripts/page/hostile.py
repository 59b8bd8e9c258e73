"""An executable (ELF, 32 bits) whose symbols have hostile names: markup, scripts, turned text, bytes that are no UTF-8."""

import struct

CODE = bytes.fromhex("c7f809000000") + b"\xff\x05" + struct.pack("<I", 0x2000) + bytes.fromhex("0f01d5f4")
FUNCTION, OBJECT = 2, 1
NAMES = [
    (0x1000, b"</script><script>alert(1)</script>", FUNCTION),
    (0x2000, b"</script><script>window.pwned=1//", OBJECT),
    (0x2004, b"<img src=x onerror=window.pwned=2>", OBJECT),
    (0x2008, b"<!--<script>", OBJECT),
    (0x200C, "a\u202eevil\u2028x\"'`${1}&lt;\\u003c".encode(), OBJECT),
    (0x2010, b"\xff\xfe\x80bad utf8", OBJECT),
    (0x2014, b"]]>&amp;{{x}}" + b"y" * 200, OBJECT),
    (0x2018, b"__proto__", OBJECT),
    (0x201C, b"constructor", OBJECT),
]
SECTION_NAMES = b"\0.text\0.symtab\0.strtab\0.shstrtab\0.data\0"


def section(name, kind, flags=0, address=0, offset=0, size=0, link=0, info=0, align=1, entry=0):
    return struct.pack("<10I", SECTION_NAMES.index(name), kind, flags, address, offset, size, link, info, align, entry)


def symbol_tables():
    strings, symbols = b"\0", bytes(16)
    for value, name, kind in NAMES:
        symbols += struct.pack("<IIIBBH", len(strings), value, 4, 0x10 | kind, 0, 1)
        strings += name + b"\0"
    return symbols, strings


def hostile_executable():
    code, data = CODE.ljust(0x40, b"\0"), bytes(0x40)
    symbols, strings = symbol_tables()
    code_at = 0x1000
    data_at = code_at + len(code)
    symbols_at = data_at + len(data)
    strings_at = symbols_at + len(symbols)
    names_at = strings_at + len(strings)
    sections_at = (names_at + len(SECTION_NAMES) + 3) // 4 * 4
    head = b"\x7fELF\x01\x01\x01" + bytes(9)
    head += struct.pack("<HHIIIIIHHHHHH", 2, 3, 1, 0x1000, 52, sections_at, 0, 52, 32, 2, 40, 6, 4)
    head += struct.pack("<8I", 1, code_at, 0x1000, 0x1000, len(code), len(code), 5, 1)
    head += struct.pack("<8I", 1, data_at, 0x2000, 0x2000, len(data), len(data), 6, 1)
    file = head.ljust(code_at, b"\0") + code + data + symbols + strings + SECTION_NAMES
    return file.ljust(sections_at, b"\0") + bytes(40) + b"".join([
        section(b".text", 1, 6, 0x1000, code_at, len(code)),
        section(b".symtab", 2, 0, 0, symbols_at, len(symbols), 3, 1, 4, 16),
        section(b".strtab", 3, 0, 0, strings_at, len(strings)),
        section(b".shstrtab", 3, 0, 0, names_at, len(SECTION_NAMES)),
        section(b".data", 1, 3, 0x2000, data_at, len(data)),
    ])
