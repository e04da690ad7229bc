#!/usr/bin/env python3
"""Writes stdin (cases) and stdout (what they should come to) beside this script.

The decoder below is a reading of the encoding rules of docs/RULES.md of its own, made apart from the Rattle code:
it walks over the bytes with a cursor and raises a refusal where a byte shows one.
"""
import os
import random

HERE = os.path.dirname(os.path.abspath(__file__))


class Refused(Exception):
    def __init__(self, number, place):
        self.number, self.place = number, place


class Code:
    def __init__(self, pc, data):
        self.pc, self.data, self.at, self.lines = pc, data, 0, 0

    def address(self, k=None):
        return (self.pc + (self.at if k is None else k)) & 0xFFFFFFFF

    def byte(self):
        if self.at >= len(self.data):
            raise Refused(10, self.address())
        b = self.data[self.at]
        self.at += 1
        self.lines += 1
        return b

    def number(self, n):
        return sum(self.byte() << (8 * i) for i in range(n))

    def signed(self, n):
        x = self.number(n)
        return x - (1 << (8 * n)) if x >> (8 * n - 1) else x


SIZE = {1: "Byte", 2: "Halfword", 4: "Word", 8: "Doubleword"}
# opcode: (name, bytes of the first, bytes of the second, access of the first, access of the second)
TWO = {}
for op, name, a, b in [
    (0x09, "Mov", 1, 1), (0x1B, "Mov", 2, 2), (0x2D, "Mov", 4, 4), (0x3F, "Mov", 8, 8),
    (0x0A, "Movs", 1, 2), (0x0C, "Movs", 1, 4), (0x1C, "Movs", 2, 4),
    (0x0B, "Movz", 1, 2), (0x0D, "Movz", 1, 4), (0x1D, "Movz", 2, 4),
]:
    TWO[op] = (name, a, b, "r", "w")
for i, n in enumerate((1, 2, 4)):
    TWO[0x40 + 2 * i] = ("Movea", n, 4, "n", "w")
    for op, name in [(0x80, "Add"), (0x90, "Addc"), (0xA8, "Sub"), (0x98, "Subc"), (0xA0, "And"), (0x88, "Or"), (0xB0, "Xor")]:
        TWO[op + 2 * i] = (name, n, n, "r", "rw")
    TWO[0xB8 + 2 * i] = ("Cmp", n, n, "r", "r")
    for op, name in [(0x39, "Neg"), (0x38, "Not")]:
        TWO[op + 2 * i] = (name, n, n, "r", "w")
    for op, name in [(0xA9, "Shl"), (0xB9, "Sha"), (0x89, "Rot")]:
        TWO[op + 2 * i] = (name, 1, n, "r", "rw")
ONE = {}
for i, n in enumerate((1, 2, 4)):
    for op, name, access in [(0xD8, "Inc", "rw"), (0xD0, "Dec", "rw"), (0xF0, "Test", "r")]:
        ONE[op + 2 * i] = (name, n, access)
for op, name, n, access in [(0xD6, "Jmp", 1, "n"), (0xE8, "Jsr", 1, "n"), (0xEE, "Push", 4, "r"), (0xE6, "Pop", 4, "w")]:
    ONE[op] = (name, n, access)


def judge_register(n, size, access, place):
    if size == 8 and n == 31 and access != "n":
        raise Refused(18, place)
    if access == "n":
        raise Refused(19, place)


def judge_immediate(size, access, place):
    if access == "r" and size == 8:
        raise Refused(18, place)
    if access != "r":
        raise Refused(19, place)


def plain(code, top, n, listed_ok, size, access, place):
    """a mode byte with m = 0; listed_ok is false behind an index"""
    if top < 3:
        return f"Displaced(Register({n}), {code.signed(1 << top)})"
    if top == 3:
        return f"Indirect({n})"
    if top < 7:
        return f"Deferred(Register({n}), {code.signed(1 << (top - 4))})"
    if 0x10 <= n <= 0x12:
        return f"Displaced(Pc, {code.signed(1 << (n - 0x10))})"
    if n == 0x13:
        return f"Displaced(Zero, {code.signed(4)})"
    if 0x18 <= n <= 0x1A:
        return f"Deferred(Pc, {code.signed(1 << (n - 0x18))})"
    if n == 0x1B:
        return f"Deferred(Zero, {code.signed(4)})"
    if not listed_ok:
        raise Refused(18, place)
    if n < 0x10:
        judge_immediate(size, access, place)
        return ("Immediate", n)
    if n == 0x14:
        judge_immediate(size, access, place)
        return ("Immediate", code.number(size))
    if 0x1C <= n <= 0x1E:
        k = 1 << (n - 0x1C)
        inner = code.signed(k)
        return ("Double", f"Pc, {inner}, {code.signed(k)}")
    raise Refused(18, place)


def operand(code, m, size, access):
    place = code.address()
    b = code.byte()
    top, n = b >> 5, b & 31
    if m == 0:
        x = plain(code, top, n, True, size, access, place)
        return f"Memory({x})" if isinstance(x, str) else f"{x[0]}({x[1]})"
    if top < 3:
        inner = code.signed(1 << top)
        return f"Double(Register({n}), {inner}, {code.signed(1 << top)})"
    if top == 3:
        judge_register(n, size, access, place)
        return f"Register({n})"
    if top == 4:
        return f"Increment({n})"
    if top == 5:
        return f"Decrement({n})"
    if top == 6:
        c = code.byte()
        return f"Indexed({plain(code, c >> 5, c & 31, False, size, access, place)}, {n})"
    raise Refused(18, place)


def string(code, m, size):
    x = operand(code, m, size, "n")
    place = code.address()
    at = code.at
    b = code.byte()
    if b < 128:
        length = f"Literal({b})"
    elif b & 0x60:
        raise Refused(20, place)
    else:
        length = f"Register({b & 31})"
    return f"StringOperand {{ operand: {x}, length: {length}, place: {at} }}"


def instruction(code):
    op = code.byte()
    if op in TWO:
        name, a, b, ra, rb = TWO[op]
        c = code.byte()
        if c < 0x80:
            m, n = c >> 6 & 1, c & 31
            if c & 0x20:
                judge_register(n, b, rb, code.address(1))
                first, second = operand(code, m, a, ra), f"Register({n})"
            else:
                judge_register(n, a, ra, code.address(1))
                first, second = f"Register({n})", operand(code, m, b, rb)
        else:
            if c & 31:
                raise Refused(16, code.pc)
            first = operand(code, c >> 6 & 1, a, ra)
            second = operand(code, c >> 5 & 1, b, rb)
        return f"Two({name}, {SIZE[a]}, {SIZE[b]}, {first}, {second})"
    if op & ~1 in ONE:
        name, n, access = ONE[op & ~1]
        return f"One({name}, {SIZE[n]}, {operand(code, op & 1, n, access)})"
    if op >> 4 in (6, 7) and op & 15 != 11:
        return f"Branch({op & 15}, {code.signed(1 if op >> 4 == 6 else 2)})"
    if op == 0x48:
        return f"Bsr({code.signed(2)})"
    if op == 0xCA:
        return "Rsr"
    if op == 0xCD:
        return "Nop"
    if op in (0x58, 0x5A):
        c = code.byte()
        name = {8: "Movc", 10: "Movcf", 12: "Movcs"}.get(c & 31)
        if name is None:
            raise Refused(16, code.pc)
        n = 1 if op == 0x58 else 2
        first = string(code, c >> 6 & 1, n)
        return f"Strings({name}, {SIZE[n]}, {first}, {string(code, c >> 5 & 1, n)})"
    raise Refused(16, code.pc)


def decode(pc, data):
    code = Code(pc, data)
    try:
        action = instruction(code)
    except Refused as r:
        return f"{r.number} {r.place:08X} {code.lines}"
    return f"{action} {code.at} {code.lines}"


def cases():
    rnd = random.Random(60616)
    tail = bytes.fromhex("0180FF7F12345678809A")
    pc = 0x1000
    # every opcode, with both bits of Format I, Format II, R31, and a bad Format II
    for op in range(256):
        for second in (0x01, 0x21, 0x5F, 0x7F, 0xE0, 0x81, 0x6A):
            for third in (0x62, 0xE5, 0xC4):
                yield pc, bytes((op, second, third)) + tail
    # every mode byte in each place, and every second byte of an index
    for op in (0x2D, 0x09, 0x3F, 0x44, 0xBC, 0xAD, 0x84):
        for second in (0x01, 0x21, 0x41, 0x61):
            for mode in range(256):
                yield pc, bytes((op, second, mode)) + tail
    for op in (0xF4, 0xF5, 0xD8, 0xD9, 0xD6, 0xD7, 0xE8, 0xEF, 0xE6, 0xE7):
        for mode in range(256):
            yield pc, bytes((op, mode)) + tail
    for second in range(256):
        yield pc, bytes((0x2D, 0x61, 0xC1, second)) + tail
        yield pc, bytes((0x0C, 0xE0, 0xDF, second, 0x9F)) + tail
    # strings: every subcode, every length byte in both places, modes
    for op in (0x58, 0x5A):
        for sub in range(256):
            yield pc, bytes((op, sub, 0x61, 0x03, 0x62, 0x02)) + tail
        for length in range(256):
            yield pc, bytes((op, 0x08, 0x61, length, 0x62, 0x02)) + tail
            yield pc, bytes((op, 0x6A, 0x81, 0x05, 0xA2, length)) + tail
        for mode in range(256):
            yield pc, bytes((op, 0x4C, mode)) + tail
            yield pc, bytes((op, 0x2C, 0x61, 0x7F, mode)) + tail
    # the longest instructions, cut off after each byte
    longest = [
        bytes.fromhex("5A6A41112233445566778803428091A2B3C4D5E6F704"),
        bytes.fromhex("2DE0410102030405060708429192939495969798"),
        bytes.fromhex("44E0C1521122334462"), bytes.fromhex("480100"), bytes.fromhex("7A0080"),
        bytes.fromhex("3FC042010203040506070862"), bytes.fromhex("58086183628" + "2"),
    ]
    for code in longest:
        for n in range(len(code) + 1):
            yield pc, code[:n]
            yield 0xFFFFFFFF - 2, code[:n]
    # past FFFFFFFFh to 0
    for start in range(0xFFFFFFEC, 0x100000000):
        yield start, longest[0]
        yield start, bytes.fromhex("2D21E5")
    # bytes at random
    for _ in range(2000):
        op = rnd.choice(sorted(TWO) + [o + m for o in ONE for m in (0, 1)] + [0x58, 0x5A])
        yield rnd.choice((pc, 0xFFFFFFF8, 0x7FFFFFFE)), bytes([op]) + bytes(rnd.randrange(256) for _ in range(rnd.randrange(22)))


def main():
    with open(os.path.join(HERE, "stdin"), "w") as given, open(os.path.join(HERE, "stdout"), "w") as wanted:
        for pc, data in cases():
            given.write(f"{pc:X} {data.hex().upper()}\n")
            wanted.write(decode(pc, data) + "\n")


if __name__ == "__main__":
    main()
