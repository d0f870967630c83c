"""Loops of a few instructions, made by hand, with which the machine's speed is measured. Each counts rcx down to 0, and then
ends by service 0 with the integer 42. Encodings after the AMD64 Architecture Programmer's Manual, Volume 3."""
import struct

RAX, RCX, RDX, RBX, RSP, RBP, RSI, RDI = range(8)
R15 = 15
NOT_EQUAL = 5
GROUP = {"add": 0, "and": 4, "sub": 5, "xor": 6, "cmp": 7}
RETURN = b"\xc3"
SYSCALL = b"\x0f\x05"


def prefix(reg, rm):
    """The prefix of 64-bit operands, with the high bits of two registers."""
    return 0x48 | reg >> 3 << 2 | rm >> 3


def registers(opcode, rm, reg):
    return bytes([prefix(reg, rm), opcode, 0xC0 | (reg & 7) << 3 | rm & 7])


def memory_operand(opcode, reg, base, offset):
    sib = b"\x24" if base & 7 == 4 else b""
    return bytes([prefix(reg, base), opcode, 0x80 | (reg & 7) << 3 | base & 7]) + sib + struct.pack("<i", offset)


def move(to, source):
    return registers(0x89, to, source)


def load(to, base, offset):
    return memory_operand(0x8B, to, base, offset)


def store(base, offset, source):
    return memory_operand(0x89, source, base, offset)


def constant(to, value):
    return bytes([0x48 | to >> 3, 0xB8 | to & 7]) + struct.pack("<Q", value)


def binary(name, to, source):
    return registers(GROUP[name] << 3 | 1, to, source)


def binary_constant(name, to, value):
    return bytes([prefix(0, to), 0x81, 0xC0 | GROUP[name] << 3 | to & 7]) + struct.pack("<i", value)


def jump_if(condition, distance):
    return bytes([0x0F, 0x80 | condition]) + struct.pack("<i", distance)


def call(distance):
    return b"\xe8" + struct.pack("<i", distance)


def push(register):
    return bytes([0x50 | register])


def pop(register):
    return bytes([0x58 | register])


END = constant(RDI, 16 * 42 + 15) + constant(RAX, 0) + SYSCALL


def counted(head, body, times):
    """The code of a loop around the body."""
    body += binary_constant("sub", RCX, 1)
    back = jump_if(NOT_EQUAL, -len(body) - 6)
    return head + constant(RCX, times) + body + back + END


def arithmetic(times):
    """The code of a loop of arithmetic, and its instructions each time."""
    body = binary("add", RAX, RCX) + binary("xor", RDX, RAX) + move(RBX, RDX) + binary("sub", RBX, RAX)
    return counted(constant(RAX, 1) + constant(RDX, 3), body, times), 6


def calls(times):
    """The code of a loop that calls a function, which pushes and pops a register, and its instructions each time."""
    function = push(RBX) + pop(RBX) + RETURN
    behind = binary_constant("sub", RCX, 1) + jump_if(NOT_EQUAL, -18)
    return constant(RCX, times) + call(len(behind) + len(END)) + behind + END + function, 6


def memory(times):
    """The code of a loop that stores and loads words of the heap, and its instructions each time."""
    body = store(R15, 16, RCX) + load(RAX, R15, 16) + store(R15, 24, RAX) + load(RDX, R15, 24)
    return counted(b"", body, times), 6
