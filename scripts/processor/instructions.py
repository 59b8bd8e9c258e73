"""Random instructions in all spellings of docs/FORMATS.md, "Instructions", but those of transactions and CPUID.

An author writes each where the processor stands, so that it knows the registers: most accesses go to memory that is there.
"""

import struct

from native import CODE, DATA, END, PAGE

CF, PF, AF, ZF, SF, OF = 0x001, 0x004, 0x010, 0x040, 0x080, 0x800
ALL = CF | PF | AF | ZF | SF | OF
ECX, ESP, EBP = 1, 4, 5

ALU = "add or adc sbb and sub xor cmp".split()
UNARY = {2: "not", 3: "neg", 4: "mul", 5: "imul", 6: "div", 7: "idiv"}
SHIFTS = {0: "rol", 1: "ror", 4: "shl", 5: "shr", 7: "sar"}
BITS = {4: "bt", 5: "bts", 6: "btr", 7: "btc"}
CONDITIONS = "o no b ae e ne be a s ns p np l ge le g".split()
BARE = {
    "cdq": b"\x99", "cwde": b"\x98", "clc": b"\xf8", "stc": b"\xf9", "cmc": b"\xf5", "nop": b"\x90", "pause": b"\xf3\x90",
    "lfence": b"\x0f\xae\xe8", "mfence": b"\x0f\xae\xf0", "sfence": b"\x0f\xae\xf8",
}
STOPS = {"hlt": b"\xf4", "int3": b"\xcc", "ud2": b"\x0f\x0b"}
EDGES = (0, 1, 2, 0x0F, 0x10, 0x1F, 0x20, 0x21, 0x7F, 0x80, 0xFF, 0x7FFFFFFF, 0x80000000, 0x80000001, 0xFFFFFFFE, 0xFFFFFFFF)

# The flags that the manual leaves undefined (docs/MACHINE.md): those of a shift or rotation also hang on its count.
UNDEFINED = dict.fromkeys(["and", "or", "xor", "test", "shl", "shr", "sar"], AF)
UNDEFINED |= dict.fromkeys(["mul", "imul"], AF | ZF | SF | PF)
UNDEFINED |= dict.fromkeys(BITS.values(), OF | SF | AF | PF)
UNDEFINED |= dict.fromkeys(["div", "idiv"], ALL)


class Instruction:
    """Its name, its bytes, and of a shift its count, where that is not CL."""

    def __init__(self, name, code, count=None):
        self.name, self.code, self.count = name, code, count

    def undefined(self, registers):
        """The flags that it leaves undefined, with these registers before it."""
        if self.name not in SHIFTS.values():
            return UNDEFINED.get(self.name, 0)
        count = (registers[ECX] if self.count is None else self.count) % 32
        if count == 0:
            return 0
        return UNDEFINED.get(self.name, 0) | (OF if count > 1 else 0)


def byte(number):
    return bytes([number % 0x100])


def dword(number):
    return struct.pack("<I", number % 2**32)


def is_data(address):
    """Whether a doubleword there lies in the pages that can be written."""
    return DATA <= address <= END - 4


def is_code(address):
    return CODE <= address < DATA


class Author:
    """Writes the next instruction. `starts`: the addresses that have one already."""

    def __init__(self, rng):
        self.rng = rng
        self.next_ones = []
        kinds = {
            self.alu: 20, self.mov: 10, self.mov_pointer: 7, self.lea: 3, self.xchg: 3, self.inc_dec: 4, self.test: 4,
            self.unary: 6, self.divide: 4, self.imul: 4, self.shift: 9, self.push: 4, self.pop: 3, self.leave: 1,
            self.call: 3, self.ret: 2, self.jmp: 3, self.jcc: 5, self.setcc: 3, self.cmovcc: 3, self.loop: 2, self.extend: 3,
            self.exchange: 5, self.bit: 5, self.bare: 4, self.nop: 1, self.stop: 0.4, self.locked: 0.6,
        }
        self.kinds, self.weights = list(kinds), list(kinds.values())

    def write(self, registers, eip, starts, read, is_last=False):
        """An instruction for this place. `read` gives bytes of memory. The last one of a program may well be a stop."""
        self.registers, self.eip, self.starts, self.read, self.is_last = registers, eip, starts, read, is_last
        if self.next_ones:
            return self.next_ones.pop(0)()
        return self.rng.choices(self.kinds, self.weights)[0]()

    # ---- operands

    def chance(self, part):
        return self.rng.random() < part

    def number(self):
        return self.rng.choice(EDGES) if self.chance(0.5) else self.rng.getrandbits(32)

    def small(self):
        return self.rng.choice(EDGES) % 0x100 if self.chance(0.5) else self.rng.getrandbits(8)

    def register(self):
        """A register of 32 bits, ESP seldom: without a stack little goes on."""
        number = self.rng.randrange(8)
        return self.rng.randrange(8) if number == ESP and self.chance(0.9) else number

    def target(self):
        """An address to load from or to store to: of a hundred one is of no memory or of code, of the last ones half."""
        kind = 0.99 if self.is_last and self.chance(0.5) else self.rng.random()
        if kind < 0.9:
            return self.rng.randrange(DATA, DATA + 0x200) if kind < 0.6 else DATA + 4 * self.rng.randrange(16)
        edges = (DATA - 4, DATA, DATA + PAGE, END - 4) if kind < 0.985 else (END, CODE + 8, 0xFFFFFFFE, 2**31)
        return self.rng.choice(edges) + self.rng.randrange(-3, 4)

    def memory(self, reg, address=None):
        """A ModRM byte and what follows it, for memory, most often at the address."""
        address = self.target() if address is None else address
        if self.chance(0.2):
            return byte(reg << 3 | 5) + dword(address)
        if self.chance(0.4):
            return self.based(reg, address)
        return self.indexed(reg, address)

    def base(self):
        """A register, most often one that points to data where there is one."""
        near = [n for n in range(8) if is_data(self.registers[n])]
        return self.rng.choice(near) if near and self.chance(0.7) else self.rng.randrange(8)

    def displacement(self, value, address, mod):
        """The form (0, 1, 2) and the displacement: the short one where it leads to data."""
        if mod == 0 and is_data(value % 2**32):
            return 0, b""
        if mod == 1:
            short = self.rng.randrange(-128, 128)
            if is_data((value + short) % 2**32):
                return 1, byte(short)
        return 2, dword(address - value)

    def based(self, reg, address):
        base = self.base()
        if base == ESP:
            return self.indexed(reg, address)
        mod, rest = self.displacement(self.registers[base], address, self.rng.choice((1, 2) if base == EBP else (0, 1, 2)))
        return byte(mod << 6 | reg << 3 | base) + rest

    def indexed(self, reg, address):
        base, index, scale = self.base(), self.rng.randrange(8), self.rng.randrange(4)
        value = 0 if index == ESP else self.registers[index] << scale
        sib = byte(scale << 6 | index << 3 | base)
        if base == EBP and self.chance(0.5):
            return byte(reg << 3 | 4) + sib + dword(address - value)
        value += self.registers[base]
        mod, rest = self.displacement(value, address, self.rng.choice((1, 2) if base == EBP else (0, 1, 2)))
        return byte(mod << 6 | reg << 3 | 4) + sib + rest

    def operand(self, reg, in_memory=0.5):
        """A register or memory."""
        if self.chance(in_memory):
            return self.memory(reg)
        return byte(0xC0 | reg << 3 | self.register())

    def lock(self, operand):
        """LOCK or nothing, in front of what may have it with memory."""
        return b"\xf0" if operand[0] < 0xC0 and self.chance(0.3) else b""

    # ---- what calculates

    def alu(self):
        n, form = self.rng.randrange(8), self.rng.randrange(9)
        if form < 6:
            code = self.alu_plain(n, form)
        else:
            operand = self.operand(n)
            opcode = (0x80, 0x81, 0x83)[form - 6]
            number = dword(self.number()) if opcode == 0x81 else byte(self.small())
            code = (self.lock(operand) if n != 7 else b"") + byte(opcode) + operand + number
        return Instruction(ALU[n], code)

    def alu_plain(self, n, form):
        if form == 4:
            return byte(8 * n + 4) + byte(self.small())
        if form == 5:
            return byte(8 * n + 5) + dword(self.number())
        operand = self.operand(self.register())
        return (self.lock(operand) if n != 7 and form < 2 else b"") + byte(8 * n + form) + operand

    def test(self):
        return Instruction("test", self.rng.choice((
            lambda: b"\x84" + self.operand(self.register()),
            lambda: b"\x85" + self.operand(self.register()),
            lambda: b"\xa8" + byte(self.small()),
            lambda: b"\xa9" + dword(self.number()),
            lambda: b"\xf6" + self.operand(0) + byte(self.small()),
            lambda: b"\xf7" + self.operand(0) + dword(self.number()),
        ))())

    def inc_dec(self):
        n = self.rng.randrange(2)
        if self.chance(0.3):
            return Instruction(("inc", "dec")[n], byte(0x40 + 8 * n + self.register()))
        operand = self.operand(n)
        return Instruction(("inc", "dec")[n], self.lock(operand) + self.rng.choice((b"\xfe", b"\xff")) + operand)

    def unary(self):
        n = self.rng.randrange(2, 6)
        operand = self.operand(n)
        return Instruction(UNARY[n], (self.lock(operand) if n < 4 else b"") + b"\xf7" + operand)

    def divide(self):
        """DIV or IDIV, most often behind an EDX that lets the quotient fit."""
        n = self.rng.randrange(6, 8)

        def division():
            return Instruction(UNARY[n], b"\xf7" + self.operand(n))

        if self.chance(0.2):
            return division()
        self.next_ones.append(division)
        if n == 7 and self.chance(0.7):
            return Instruction("cdq", BARE["cdq"])
        return Instruction("mov", b"\xba" + dword(self.rng.choice((0, 0, 0, 1, 2, 0xFF))))

    def imul(self):
        form = self.rng.randrange(3)
        head = (b"\x0f\xaf", b"\x69", b"\x6b")[form] + self.operand(self.register())
        return Instruction("imul", head + (b"", dword(self.number()), byte(self.small()))[form])

    def shift(self):
        n = self.rng.choice(list(SHIFTS))
        form = self.rng.randrange(3)
        operand, count = self.operand(n), self.small()
        code = (b"\xc1" + operand + byte(count), b"\xd1" + operand, b"\xd3" + operand)[form]
        return Instruction(SHIFTS[n], code, (count, 1, None)[form])

    def bit(self):
        n = self.rng.choice(list(BITS))
        operand = self.operand(n)
        return Instruction(BITS[n], (self.lock(operand) if n != 4 else b"") + b"\x0f\xba" + operand + byte(self.small()))

    def exchange(self):
        """XADD, or CMPXCHG, every other one behind a load of EAX that makes it succeed."""
        if self.chance(0.5):
            operand = self.operand(self.register())
            return Instruction("xadd", self.lock(operand) + b"\x0f\xc1" + operand)
        if self.chance(0.5):
            operand = self.operand(self.register())
            return Instruction("cmpxchg", self.lock(operand) + b"\x0f\xb1" + operand)
        address = self.rng.randrange(DATA, END - 4)

        def success():
            operand = byte(self.register() << 3 | 5) + dword(address)
            return Instruction("cmpxchg", self.lock(operand) + b"\x0f\xb1" + operand)

        self.next_ones.append(success)
        return Instruction("mov", b"\xa1" + dword(address))

    # ---- what moves

    def mov(self):
        return Instruction("mov", self.rng.choice((
            lambda: self.rng.choice((b"\x88", b"\x89", b"\x8a", b"\x8b")) + self.operand(self.register(), 0.7),
            lambda: self.rng.choice((b"\xa0", b"\xa1", b"\xa2", b"\xa3")) + dword(self.target()),
            lambda: byte(0xB0 + self.rng.randrange(8)) + byte(self.small()),
            lambda: byte(0xB8 + self.register()) + dword(self.number()),
            lambda: b"\xc6" + self.operand(0, 0.7) + byte(self.small()),
            lambda: b"\xc7" + self.operand(0, 0.7) + dword(self.number()),
        ))())

    def mov_pointer(self):
        """A register that points to data, or ESP to a stack."""
        if not is_data(self.registers[ESP]) and self.chance(0.5):
            return Instruction("mov", b"\xbc" + dword(END - 4 * self.rng.randrange(1, 64)))
        return Instruction("mov", byte(0xB8 + self.register()) + dword(self.rng.randrange(DATA, END)))

    def lea(self):
        return Instruction("lea", b"\x8d" + self.memory(self.register(), self.number()))

    def xchg(self):
        if self.chance(0.3):
            return Instruction("xchg", byte(0x90 + self.rng.randrange(1, 8)))
        operand = self.operand(self.register())
        return Instruction("xchg", self.lock(operand) + self.rng.choice((b"\x86", b"\x87")) + operand)

    def setcc(self):
        n = self.rng.randrange(16)
        return Instruction("set" + CONDITIONS[n], b"\x0f" + byte(0x90 + n) + self.operand(0))

    def cmovcc(self):
        n = self.rng.randrange(16)
        return Instruction("cmov" + CONDITIONS[n], b"\x0f" + byte(0x40 + n) + self.operand(self.register()))

    def extend(self):
        name, opcode = self.rng.choice((("movzx", b"\x0f\xb6"), ("movsx", b"\x0f\xbe")))
        return Instruction(name, opcode + self.operand(self.register()))

    def bare(self):
        name = self.rng.choice(list(BARE))
        return Instruction(name, BARE[name])

    def nop(self):
        """NOP with an operand, which it does not load."""
        return Instruction("nop", b"\x0f\x1f" + self.memory(0, self.number()))

    def stop(self):
        name = self.rng.choice(list(STOPS))
        return Instruction(name, STOPS[name])

    def locked(self):
        """LOCK in front of any instruction: seldom is it allowed there."""
        instruction = self.rng.choice((
            self.alu, self.inc_dec, self.unary, self.bit, self.xchg, self.mov, self.lea, self.test, self.shift, self.push,
            self.setcc, self.cmovcc, self.extend, self.bare, self.imul, self.nop, self.stop, self.jcc,
        ))()
        if instruction.code[0] == 0xF0:
            return instruction
        return Instruction(instruction.name, b"\xf0" + instruction.code, instruction.count)

    # ---- the stack and jumps

    def push(self):
        return Instruction("push", self.rng.choice((
            lambda: byte(0x50 + self.rng.randrange(8)),
            lambda: b"\x68" + dword(self.code_address() if self.chance(0.3) else self.number()),
            lambda: b"\x6a" + byte(self.small()),
            lambda: b"\xff" + self.operand(6),
        ))())

    def pop(self):
        """Seldom from above the stack."""
        if not is_data(self.registers[ESP]) and self.chance(0.9):
            return self.push()
        if self.chance(0.5):
            return Instruction("pop", byte(0x58 + self.register()))
        return Instruction("pop", b"\x8f" + self.operand(0))

    def leave(self):
        if is_data(self.registers[EBP]) or self.chance(0.1):
            return Instruction("leave", b"\xc9")
        return Instruction("mov", b"\xbd" + dword(self.rng.randrange(DATA, END - 4)))

    def code_address(self):
        """A place further on in the code, or one of the instructions that are there."""
        if self.starts and self.chance(0.2):
            return self.rng.choice(self.starts)
        return self.eip + self.rng.randrange(12, 40)

    def distance(self, length, short):
        """From the end of an instruction of so many bytes."""
        distance = self.code_address() - self.eip - length
        return byte(distance if -128 <= distance < 128 else 0) if short else dword(distance)

    def slots(self):
        """The offsets from ESP at which addresses of code stand on the stack."""
        top = self.registers[ESP]
        if not DATA <= top <= END - 32:
            return []
        words = struct.unpack("<8I", self.read(top, 32))
        return [4 * n for n, word in enumerate(words) if is_code(word)]

    def to_code(self, n):
        """JMP (/4) or CALL (/2) by a register or memory that has an address of code, or else by a number."""
        slots, registers = self.slots(), [r for r in range(8) if is_code(self.registers[r])]
        if slots and self.chance(0.7):
            return b"\xff" + byte(0x44 | n << 3) + b"\x24" + byte(self.rng.choice(slots))
        if registers and self.chance(0.8):
            return b"\xff" + byte(0xC0 | n << 3 | self.rng.choice(registers))
        if self.chance(0.5):
            register = self.rng.choice((0, 1, 2, 3, 5, 6, 7))
            self.next_ones.append(lambda: Instruction(("call", "jmp")[n // 4], b"\xff" + byte(0xC0 | n << 3 | register)))
            return byte(0xB8 + register) + dword(self.code_address())
        return None

    def call(self):
        code = self.to_code(2) if self.chance(0.5) else None
        if code is None:
            return Instruction("call", b"\xe8" + self.distance(5, False))
        return Instruction("call" if code[0] == 0xFF else "mov", code)

    def jmp(self):
        code = self.to_code(4) if self.chance(0.4) else None
        if code is not None:
            return Instruction("jmp" if code[0] == 0xFF else "mov", code)
        short = self.chance(0.5)
        return Instruction("jmp", (b"\xeb" if short else b"\xe9") + self.distance(2 if short else 5, short))

    def ret(self):
        """Where the top of the stack leads to code, most often; else one is pushed."""
        if 0 in self.slots() or self.chance(0.1):
            return Instruction("ret", b"\xc3" if self.chance(0.5) else b"\xc2" + byte(4 * self.rng.randrange(8)) + b"\0")
        self.next_ones.append(self.ret)
        return Instruction("push", b"\x68" + dword(self.code_address()))

    def jcc(self):
        n, short = self.rng.randrange(16), self.chance(0.5)
        opcode = byte(0x70 + n) if short else b"\x0f" + byte(0x80 + n)
        return Instruction("j" + CONDITIONS[n], opcode + self.distance(2 if short else 6, short))

    def loop(self):
        name, opcode = self.rng.choice((("loop", b"\xe2"), ("jecxz", b"\xe3")))
        jump = Instruction(name, opcode + self.distance(2, True))
        if self.chance(0.5):
            return jump
        self.next_ones.append(lambda: Instruction(name, opcode + self.distance(2, True)))
        return Instruction("mov", b"\xb9" + dword(self.rng.randrange(4)))
