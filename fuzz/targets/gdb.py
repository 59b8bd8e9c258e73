"""gdb's packets: `gdb` over standard input and output (docs/GDB.md).

A case is a line that names the machine, and the bytes of the input behind it.
"""

import re

from target import Target, cases_of, expect, is_wanting, words_of

MACHINES = {
    b"conflict": ("conflict.img", "--cores", "2"),
    b"schedule": ("conflict.img", "--cores", "2", "--steps", "0 0 1 1 0i 1 1 1 0 0 0 1 1"),
    b"turns": ("conflict.img", "--cores", "3", "--in-turn", "--events", "1/3:snoop,eviction"),
    b"stops": ("stops.asm", "--cores", "4", "--entry", "trap,divide,undefined,far"),
    b"many": ("conflict.img", "--cores", "64", "--mem", "1048576", "--random", "7", "--limit", "500"),
}
FILES = {
    "conflict.img": b"image 1 100 16\nc7f80f000000a10010000040a3001000000f01d5f4f4\n",
    "stops.asm": b"trap: inc dword [w]\nint3\ndivide: xbegin f\ndiv ecx\nf: div ecx\nundefined: push 1\npop eax\nud2\n"
                 b"far: mov eax, [w]\nmov [0xfffffff0], eax\nsection .data\nw: dd 0\n",
}
MOST_BYTES = 16384
STOP = rb"T(?:04|05|08|0b)(?:replaylog:(?:begin|end);|swbreak:;|watch:[0-9a-f]{8};)?thread:[0-9a-f]{2};"
HEX = rb"(?:[0-9a-f]{2})*"
# What is answered to a packet, by how it begins; the longest beginning counts.
ANSWERS = {
    b"": rb"",
    b"?": STOP,
    b"g": rb"(?:[0-9a-f]{2}|xx)+",
    b"p": rb"(?:[0-9a-f]{2}|xx)+|E01",
    b"m": HEX + rb"|E01|E14",
    b"T": rb"OK|E01",
    b"D": rb"OK",
    b"G": rb"E\.read-only",
    b"P": rb"E\.read-only",
    b"M": rb"E01",
    b"X": rb"E01",
    b"s": STOP + rb"|E01",
    b"c": STOP + rb"|E01",
    b"b": rb"|" + STOP,
    b"H": rb"|OK|E01",
    b"Z": rb"|OK|E01",
    b"z": rb"|OK",
    b"vCont": rb"|E01",
    b"vCont;": rb"|E01|" + STOP,
    b"vCont?": rb"|vCont;c;C;s;S",
    b"vKill": rb"|OK",
    b"qSupported": rb"|PacketSize=4000;.*",
    b"qC": rb"|QC[0-9a-f]{2}",
    b"qAttached": rb"|1",
    b"qfThreadInfo": rb"|m[0-9a-f,]+",
    b"qsThreadInfo": rb"|l",
    b"qXfer:": rb"|[ml].*|E01",
    b"qRcmd": rb"|OK|(?:[0-9a-f]{2})+",
    b"QStartNoAckMode": rb"|OK",
}
TEXTS = words_of("gdb.words")
PIECES = [b"$", b"#", b"}", b"}\x04", b"+", b"-", b"\3", b"#00", b"ffffffff", b"100000000", b"-1", b",", b";", b":"]


# A step of the first core and its way back, and what is shown before and behind; of these packets, the counts of steps.
STEP_AND_BACK = b"Hg1 Hc1 g m100,60 p25 s p25 bs g m100,60 p25".split()
PLACES = 4, 6, 10


def framed(text):
    """The packet of a text that is escaped already."""
    return b"$%s#%02x" % (text, sum(text) % 256)


def escaped(text):
    return re.sub(rb"[$#}*]", lambda found: b"}" + bytes([found[0][0] ^ 32]), text)


def unescaped(text):
    """The bytes that a packet's text stands for, or None."""
    if re.search(rb"^(?:[^}]|}.)*}$", text, re.DOTALL):
        return None
    found = re.sub(rb"}(.)", lambda it: b"\0" + bytes([it[1][0] ^ 32]), text, flags=re.DOTALL)
    if re.search(rb"[$#]", re.sub(rb"}.", b"", text, flags=re.DOTALL)):
        return None
    return re.sub(rb"}(.)", lambda it: bytes([it[1][0] ^ 32]), text, flags=re.DOTALL) if found else b""


def heard(given):
    """What a session hears: the bytes of packets, `-` for one that is refused, `again` for a wish to hear the last."""
    at = 0
    while at < len(given):
        if given[at:at + 1] != b"$":
            if given[at:at + 1] == b"-":
                yield "again"
            at += 1
            continue
        end = given.find(b"#", at)
        if end < 0 or end + 3 > len(given):
            return
        text, at = given[at + 1:end], end + 3
        packet = unescaped(text) if len(text) <= MOST_BYTES and given[end:at] == b"#%02x" % (sum(text) % 256) else None
        yield "-" if packet is None else packet


def is_end(packet):
    return packet[:1] in (b"D", b"k") or packet == b"vKill" or packet.startswith(b"vKill;")


def form_of(packet):
    return ANSWERS[max((begin for begin in ANSWERS if packet.startswith(begin)), key=len)]


def answers_in(given, out):
    """The packets that were heard up to the session's end, each with its answer."""
    at, acknowledges, last, found = 0, True, None, []
    for packet in heard(given):
        if packet == "-":
            expect(out[at:at + 1] == b"-", "a damaged packet that is not refused")
            at += 1
            continue
        if packet == "again":
            if last is not None:
                expect(out[at:].startswith(last), "the last answer is not told again")
                at += len(last)
            continue
        if acknowledges:
            expect(out[at:at + 1] == b"+", "a packet that is not acknowledged")
            at += 1
        if packet[:1] != b"k":
            last, at = answer_at(out, at)
            found.append((packet, unescaped(last[1:-3])))
        acknowledges = acknowledges and packet != b"QStartNoAckMode"
        if is_end(packet):
            break
    expect(at == len(out), "more answers than packets")
    return found


def answer_at(out, at):
    """The packet that stands there, and where it ends."""
    packet = re.compile(rb"\$([^$#]*)#([0-9a-f]{2})").match(out, at)
    expect(packet, "a packet without an answer")
    expect(int(packet[2], 16) == sum(packet[1]) % 256, "an answer with another checksum than its own")
    expect(unescaped(packet[1]) is not None, "an answer that ends within an escape")
    return packet[0], packet.end()


class Gdb(Target):
    name = "gdb"
    tokens = [framed(text) for text in TEXTS] + PIECES

    def seeds(self):
        return [self.packed(case) for case in cases_of("gdb.txt")]

    @staticmethod
    def packed(case):
        """Of the corpus: the machine, and the texts of packets, a line each, or bytes as they are behind a `!`."""
        machine, *lines = case.split(b"\n")
        packets = [line[1:] if line.startswith(b"!") else framed(escaped(line)) for line in lines]
        return machine + b"\n" + b"".join(packets)

    def made(self, draw):
        texts = [draw.choice(TEXTS) for _ in range(draw.randrange(1, 25))]
        return draw.choice(list(MACHINES)) + b"\n" + b"".join(framed(text) for text in texts)

    def changed(self, draw, case, others):
        """Mostly the texts of packets are changed, and framed again."""
        case = super().changed(draw, case, others)
        if draw.randrange(4) == 0:
            return case
        machine, _, given = case.partition(b"\n")
        return machine + b"\n" + re.sub(rb"\$([^$#]*)#(?:[0-9a-f]{2})?", lambda found: framed(found[1]), given)

    def look(self, case, starter):
        for name, content in FILES.items():
            starter.write(name, content)
        machine, _, given = case.partition(b"\n")
        words = MACHINES.get(machine) or MACHINES[sorted(MACHINES)[len(case) % len(MACHINES)]]
        answer = starter.start("gdb", *words, given=given)
        if is_wanting(answer):
            return
        expect(answer.status == 0, "a session that does not go on to its end")
        found = answers_in(given, answer.out)
        before = b""
        for packet, text in found:
            expect(re.fullmatch(form_of(packet), text, re.DOTALL), f"an answer of no known form to {packet[:40]}")
            starter.kinds.add((b"gdb", packet[:2], text[:1], re.sub(rb"[0-9a-f]{2,}", b"#", text)[:30]))
            starter.kinds.add((b"gdb", before, packet[:2], re.sub(rb"\d+", b"#", text)[:12]))
            before = packet[:2]
        if self.is_turn(case, 0, 3):
            self.look_at_clean(words, found, answer, starter)

        if self.is_turn(case, 1, 3):
            self.look_at_back(words, found, starter)

    @staticmethod
    def look_at_back(words, found, starter):
        """Behind a step and its way back all is as it was, whatever stands before."""
        packets = [packet for packet, _ in found if not is_end(packet)] + STEP_AND_BACK
        given = b"".join(framed(escaped(packet)) for packet in packets)
        answer = starter.start("gdb", *words, given=given)
        if is_wanting(answer):
            return
        shown = [text for _, text in answers_in(given, answer.out)[-len(STEP_AND_BACK):]]
        before, stepped, after = (int.from_bytes(bytes.fromhex(shown[place].decode()), "little") for place in PLACES)
        if stepped == before + 1:
            same = shown[2:PLACES[0] + 1] == shown[PLACES[2] - 2:]
            expect(after == before and same, "another state behind a step and its way back")

    @staticmethod
    def look_at_clean(words, found, answer, starter):
        """The same packets, framed whole and without what stood between them, have the same answers."""
        clean = b"".join(framed(escaped(packet)) for packet, _ in found)
        again = starter.start("gdb", *words, given=clean)
        expect(answers_in(clean, again.out) == found, "other answers to the same packets")
