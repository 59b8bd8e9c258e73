"""This machine's own processor: a process of 32 bits, stepped one instruction at a time by ptrace (Linux on x86-64).

The process has three pages and nothing else: one that can be read and executed, with zeros up to BASE, an XBEGIN there and the
program at CODE, and DATA up to END, which can be read and written. What lies elsewhere faults, as on the simulated machine.
"""

import ctypes
import os
import signal
import struct

PAGE = 0x1000
FIRST = 0x10000
BASE = FIRST + 0xCFA
CODE = BASE + 6
DATA = FIRST + PAGE
END = DATA + 2 * PAGE

# The order of registers in an instruction, and of all of them in what ptrace hands over (struct user_regs_struct).
NAMES = ("eax", "ecx", "edx", "ebx", "esp", "ebp", "esi", "edi")
ORDER = (
    "r15 r14 r13 r12 ebp ebx r11 r10 r9 r8 eax ecx edx esi edi orig_eax eip cs flags esp ss fs_base gs_base ds es fs gs"
).split()

TRACE_ME, CONTINUE, STEP, GET_REGISTERS, SET_REGISTERS, SET_OPTIONS, GET_SIGNAL = 0, 7, 9, 12, 13, 0x4200, 0x4202
KILL_WITH_TRACER = 0x100000

# The highest address of a process of 32 bits, rounded down to pages: what is unmapped ends there.
TOP = 0xFFFFE000


class Unable(Exception):
    """This machine cannot run code of 32 bits for us."""


def unmap_all_else():
    """munmap(END, TOP - END), and INT3."""
    return (
        b"\xb8" + struct.pack("<I", 91) + b"\xbb" + struct.pack("<I", END) + b"\xb9" + struct.pack("<I", TOP - END)
        + b"\xcd\x80\xcc"
    )


def executable():
    """An ELF executable of the three pages."""
    head = b"\x7fELF\x01\x01\x01" + bytes(9)
    head += struct.pack("<HHIIIIIHHHHHH", 2, 3, 1, FIRST, 52, 0, 0, 52, 32, 3, 40, 0, 0)
    load, stack, read, write, execute = 1, 0x6474E551, 4, 2, 1
    head += struct.pack("<8I", load, PAGE, FIRST, FIRST, PAGE, PAGE, read | execute, PAGE)
    head += struct.pack("<8I", load, 2 * PAGE, DATA, DATA, END - DATA, END - DATA, read | write, PAGE)
    head += struct.pack("<8I", stack, 0, 0, 0, 0, 0, read | write, 16)
    return head.ljust(PAGE, b"\0") + unmap_all_else().ljust(PAGE, b"\0") + bytes(END - DATA)


class Processor:
    """The process, which stands before an instruction."""

    def __init__(self, folder):
        if os.uname().machine != "x86_64":
            raise Unable("this is no x86-64 processor")
        path = os.path.join(folder, "pages")
        with open(path, "wb") as file:
            file.write(executable())
        os.chmod(path, 0o700)
        self._libc = ctypes.CDLL(None, use_errno=True)
        self._libc.ptrace.argtypes = [ctypes.c_long, ctypes.c_long, ctypes.c_void_p, ctypes.c_void_p]
        self._libc.ptrace.restype = ctypes.c_long
        self._buffer = ctypes.create_string_buffer(8 * len(ORDER))
        self._signal = ctypes.create_string_buffer(128)
        self._pid = os.fork()
        if self._pid == 0:
            try:
                self._libc.ptrace(TRACE_ME, 0, None, None)
                os.execv(path, [path])
            finally:
                os._exit(127)
        self._wait()
        self._ptrace(SET_OPTIONS, KILL_WITH_TRACER)
        self._memory = os.open(f"/proc/{self._pid}/mem", os.O_RDWR)
        self._ptrace(CONTINUE, 0)
        self._wait()
        self._first = self._registers()
        if self._first["eax"] != 0:
            raise Unable("the process cannot give up its stack")
        self.write(FIRST, bytes(BASE - FIRST))

    def _ptrace(self, request, data):
        if self._libc.ptrace(request, self._pid, None, data) < 0:
            raise Unable(f"ptrace: {os.strerror(ctypes.get_errno())}")

    def _wait(self):
        _, status = os.waitpid(self._pid, 0)
        if not os.WIFSTOPPED(status):
            raise Unable("a process of 32 bits does not run here (kernel option IA32_EMULATION)")
        return os.WSTOPSIG(status)

    def _registers(self):
        self._ptrace(GET_REGISTERS, ctypes.addressof(self._buffer))
        return dict(zip(ORDER, struct.unpack(f"<{len(ORDER)}Q", self._buffer.raw)))

    def registers(self):
        """The eight registers, EIP and the flags register."""
        registers = self._registers()
        return [registers[name] & 0xFFFFFFFF for name in NAMES], registers["eip"] & 0xFFFFFFFF, registers["flags"]

    def set_registers(self, registers, eip, flags):
        """Sets what `registers` gives; of the flags all but the six named ones are as at the start of a process."""
        values = dict(self._first, eip=eip, flags=flags | 0x202, orig_eax=2**64 - 1)
        values.update(zip(NAMES, registers))
        self._buffer.raw = struct.pack(f"<{len(ORDER)}Q", *(values[name] for name in ORDER))
        self._ptrace(SET_REGISTERS, ctypes.addressof(self._buffer))

    def read(self, address, count):
        """Bytes of the three pages."""
        return os.pread(self._memory, count, address)

    def write(self, address, data):
        """Sets bytes of the three pages, of the code, too."""
        os.pwrite(self._memory, data, address)

    def step(self):
        """Runs one instruction. The signal, its code and the address of an access that faults."""
        self._ptrace(STEP, 0)
        number = self._wait()
        self._ptrace(GET_SIGNAL, ctypes.addressof(self._signal))
        code = struct.unpack_from("<i", self._signal.raw, 8)[0]
        address = struct.unpack_from("<Q", self._signal.raw, 16)[0] & 0xFFFFFFFF
        return signal.Signals(number), code, address

    def end(self):
        """Ends the process."""
        os.kill(self._pid, signal.SIGKILL)
        os.waitpid(self._pid, 0)
        os.close(self._memory)
