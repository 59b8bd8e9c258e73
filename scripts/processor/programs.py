"""Programs, and how they end on the processor.

A flag that the manual leaves undefined is put back after the instruction, as docs/MACHINE.md says that the simulated machine
has it. So the ends are the same in all six flags, or one of the two is wrong.

Some programs are the body of a transaction on the simulated machine, between an XBEGIN and an XEND. The processor, which need
not have them, begins behind the first and ends at the second.
"""

import random
import signal

from instructions import ALL, Author, Instruction, dword, is_code
from native import BASE, CODE, DATA, END, NAMES

# Of steps of the processor. An unlocked read-modify-write takes the simulated machine two.
MOST_STEPS = 1000
FILLING = b"\xf4"  # HLT
PRIVILEGED = 0x80  # the signal's code where no address is told
# Of the bytes of data so many are drawn; the others are zeros.
DRAWN = 0x200

# No byte of code is there, so that a core which comes there stops.
FALLBACK = 0xFFFFFFF0
XBEGIN = b"\xc7\xf8" + dword(FALLBACK - CODE)
XEND = Instruction("xend", b"\x0f\x01\xd5")
ABORTED_BY_BREAKPOINT, ABORTED_BY_OTHER = 0x10, 0
START = (0, 1, 0, 0, END, 0, 0, 0)

FLAG_NAMES = {0x001: "CF", 0x004: "PF", 0x010: "AF", 0x040: "ZF", 0x080: "SF", 0x800: "OF"}


class Unlike(Exception):
    """The processor comes to what the simulated machine does not have, at this address."""

    def __init__(self, address):
        super().__init__(address)
        self.address = address


class Program:
    """Instructions by their addresses, HLT around them, the bytes of data, where it begins, whether in a transaction, and
    the command of elide that runs it: they go different ways."""

    def __init__(self, entry, data, is_inside, command):
        self.entry, self.data, self.is_inside, self.command, self.instructions = entry, data, is_inside, command, {}

    def with_instructions(self, instructions, entry):
        """The same with other instructions."""
        program = Program(entry, self.data, self.is_inside, self.command)
        program.instructions = dict(instructions)
        return program

    def code(self):
        """The bytes from BASE to DATA. An instruction can end behind them, and is cut there."""
        code = bytearray(XBEGIN + FILLING * (DATA - CODE))
        for address, instruction in self.instructions.items():
            start = address - BASE
            code[start:start + len(instruction.code)] = instruction.code
        return bytes(code[:DATA - BASE])

    def place_of(self, address):
        """The address of the instruction that has this byte."""
        for start in range(address, address - 15, -1):
            if start in self.instructions and address < start + len(self.instructions[start].code):
                return start
        return None

    def image(self):
        """Its image text."""
        data = self.code() + self.data.rstrip(b"\0")
        lines = [data[at:at + 32].hex() for at in range(0, len(data), 32)]
        return f"image 1 {BASE:x} {DATA - BASE:x}\n" + "\n".join(lines) + "\n"


class End:
    """Registers, EIP, the six flags, why the program stopped, and the bytes of data."""

    def __init__(self, registers, eip, flags, cause, data):
        self.values = dict(zip(NAMES, registers), eip=eip, flags=flags & ALL)
        self.cause, self.data = cause, data

    def inside(self, program):
        """What a transaction with this body comes to, where nobody is in its way: the same, or an abort."""
        if self.cause == "XEND":
            registers = [self.values[name] for name in NAMES]
            return End(registers, self.values["eip"] + len(XEND.code), self.values["flags"], "HLT", self.data)
        status = ABORTED_BY_BREAKPOINT if self.cause == "#BP" else ABORTED_BY_OTHER
        return End([status, *START[1:]], FALLBACK, 0, "fetch", program.data)

    def differences(self, other):
        """What is not the same, a line each."""
        lines = [
            f"{name}: {value:x}, {other.values[name]:x}" for name, value in self.values.items() if value != other.values[name]
        ]
        if self.cause != other.cause:
            lines.append(f"stop: {self.cause}, {other.cause}")
        lines += [
            f"byte {DATA + at:x}: {ours:02x}, {theirs:02x}"
            for at, (ours, theirs) in enumerate(zip(self.data, other.data)) if ours != theirs
        ]
        return lines


class Counts:
    """How often each instruction ran, how programs stopped, and what became of flags that are undefined."""

    def __init__(self):
        self.ran, self.causes, self.undefined = {}, {}, {}

    def add(self, instruction, mask, before, after):
        """An instruction that ran to its end, with the six flags before it and after it."""
        self.ran[instruction.name] = self.ran.get(instruction.name, 0) + 1
        for flag, name in FLAG_NAMES.items():
            if mask & flag:
                row = self.undefined.setdefault((instruction.name, name), [0, 0, 0, 0])
                row[2 * bool(before & flag) + bool(after & flag)] += 1


def cause_of(number, code, address, eip, instruction):
    """The word behind `stop:` for a signal, or XEND, or None where the simulated machine has no such stop."""
    if instruction is XEND:
        return "XEND"
    if number == signal.SIGFPE:
        return "#DE"
    if number == signal.SIGILL:
        return "#UD"
    if number == signal.SIGTRAP:
        return "#BP"
    if number != signal.SIGSEGV:
        return None
    if eip + len(instruction.code) > DATA:
        return "fetch"
    if code == PRIVILEGED:
        return "HLT" if instruction.code == FILLING else None
    if address >= END:
        return "range"
    return "code-store" if BASE <= address < DATA else None


class Walk:
    """One run of a program, which an author goes on writing where there is one."""

    def __init__(self, processor, program, counts=None):
        self.processor, self.program, self.counts, self.last = processor, program, counts, program.entry
        processor.write(BASE, program.code())
        processor.write(DATA, program.data)
        processor.set_registers(START, program.entry, 0)

    def run(self, author=None, length=0):
        """The program's end. The author writes so many instructions."""
        for _ in range(MOST_STEPS):
            registers, eip, flags = self.processor.registers()
            if author is not None and length > 0 and self.is_free(eip):
                self.write(author, registers, eip, length == 1)
                length -= 1
            if not BASE <= eip < DATA:
                return self.end(registers, eip, flags, "fetch")
            instruction = self.instruction_at(eip)
            number, code, address = self.processor.step()
            after, eip_after, flags_after = self.processor.registers()
            is_breakpoint = number == signal.SIGTRAP and instruction.code == b"\xcc"
            if number != signal.SIGTRAP or is_breakpoint:
                return self.end(registers, eip, flags, cause_of(number, code, address, eip, instruction))
            self.keep(instruction, registers, flags, after, eip_after, flags_after)
        raise Unlike(eip)

    def is_free(self, eip):
        return is_code(eip) and self.program.place_of(eip) is None

    def write(self, author, registers, eip, is_last):
        """Adds an instruction: a NOP, where there is no room for another between two that are there."""
        program = self.program
        instruction = author.write(registers, eip, list(program.instructions), self.processor.read, is_last)
        size = len(instruction.code)
        if any(program.place_of(at) is not None for at in range(eip, eip + size)):
            instruction = Instruction("nop", b"\x90")
        program.instructions[eip] = instruction
        self.processor.write(eip, instruction.code[:DATA - eip])

    def instruction_at(self, eip):
        """The instruction there: what stands around them is HLT. One that is entered within is of no use."""
        place = self.program.place_of(eip)
        if eip < CODE or place not in (None, eip):
            raise Unlike(self.last)
        self.last = eip
        instruction = self.program.instructions.get(eip) or Instruction("hlt", FILLING)
        if instruction.name == "pause" and self.program.is_inside:
            raise Unlike(eip)
        return instruction

    def keep(self, instruction, registers, flags, after, eip_after, flags_after):
        """Puts back the flags that are undefined."""
        mask = instruction.undefined(registers)
        if self.counts is not None:
            self.counts.add(instruction, mask, flags, flags_after)
        if mask:
            self.processor.set_registers(after, eip_after, (flags_after & ALL & ~mask) | (flags & mask))

    def end(self, registers, eip, flags, cause):
        if cause is None:
            raise Unlike(eip)
        if self.counts is not None:
            self.counts.causes[cause] = self.counts.causes.get(cause, 0) + 1
        return End(registers, eip, flags, cause, self.processor.read(DATA, END - DATA))


def start_of(rng):
    """Where a program begins: at the front of the code most often, sometimes close to its end."""
    return DATA - rng.randrange(1, 120) if rng.random() < 0.05 else CODE


def setting(rng, author):
    """Instructions that set most of the registers, in front of the program."""
    numbers = [n for n in range(8) if rng.random() < 0.8 and (n != 4 or rng.random() < 0.2)]
    rng.shuffle(numbers)

    def value(n):
        if rng.random() < 0.4 or n == 4:
            return rng.randrange(DATA, END - 4)
        return author.number()

    return [lambda n=n: Instruction("mov", bytes([0xB8 + n]) + dword(value(n))) for n in numbers]


def comparable(processor, program):
    """The program without what the simulated machine does not have, and its end. It is run when it is whole: while it was
    written it may have loaded code that was not there yet."""
    while True:
        try:
            return program, Walk(processor, program).run()
        except Unlike as unlike:
            del program.instructions[unlike.address]


def written(processor, seed, number, most):
    """The program of a seed and a number, of up to `most` instructions behind those that set registers."""
    rng = random.Random(f"{seed} {number}")
    entry = start_of(rng)
    data = rng.randbytes(DRAWN).ljust(END - DATA, b"\0")
    program = Program(entry, data, entry == CODE and rng.random() < 0.5, rng.choice(("run", "threads")))
    author = Author(rng)
    author.next_ones = setting(rng, author)
    try:
        Walk(processor, program).run(author, len(author.next_ones) + rng.randint(1, most))
    except Unlike as unlike:
        del program.instructions[unlike.address]
    program, end = comparable(processor, program)
    if program.is_inside and end.cause == "HLT":
        add_xend(program, end.values["eip"])
    return comparable(processor, program)[0]


def add_xend(program, address):
    """The end of the transaction and an HLT, where there is room."""
    size = len(XEND.code) + len(FILLING)
    if address + size <= DATA and all(program.place_of(at) is None for at in range(address, address + size)):
        program.instructions[address] = XEND
