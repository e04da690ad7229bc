#!/usr/bin/env python3
"""Writes the cases (stdin) and the expected answers (stdout) of the program number_cases.

The answers are computed here, bit by bit where that is another way than the
program's, and never taken from what the program prints.
Run it in any folder: it writes the two files beside itself.
"""
import os

HERE = os.path.dirname(os.path.abspath(__file__))
cases, answers = [], []


def bits_of(n, w):
    """The bits of n, the lowest first."""
    return [(n >> i) & 1 for i in range(w)]


def number_of(bits):
    return sum(b << i for i, b in enumerate(bits))


def signed(n, w):
    """The top bit counts for -2^(w-1)."""
    bits = bits_of(n, w)
    return number_of(bits[:-1]) - (bits[-1] << (w - 1))


def fits(z, w):
    return -(2 ** (w - 1)) <= z < 2 ** (w - 1)


def result(n, w, cy, ov):
    assert 0 <= n < 2 ** w
    return "%x %d%d%d%d" % (n, cy, ov, bits_of(n, w)[w - 1], n == 0)


def add(dst, src, w, carry):
    """A chain of full adders: OV is where the last two carries differ."""
    out, last = [], carry
    for a, b in zip(bits_of(dst, w), bits_of(src, w)):
        before = last
        out.append((a + b + last) & 1)
        last = (a + b + last) >> 1
    n = number_of(out)
    cy, ov = last, before ^ last
    assert cy == (dst + src + carry >= 2 ** w)
    assert ov == (not fits(signed(dst, w) + signed(src, w) + carry, w))
    return result(n, w, cy, ov)


def subtract(dst, src, w, borrow):
    """A chain of full subtractors."""
    out, last = [], borrow
    for a, b in zip(bits_of(dst, w), bits_of(src, w)):
        before = last
        d = a - b - last
        out.append(d & 1)
        last = 1 if d < 0 else 0
    n = number_of(out)
    cy, ov = last, before ^ last
    assert cy == (dst - src - borrow < 0)
    assert ov == (not fits(signed(dst, w) - signed(src, w) - borrow, w))
    return result(n, w, cy, ov)


def logic(op, dst, src, w, flags):
    table = {"and": (0, 0, 0, 1), "or": (0, 1, 1, 1), "xor": (0, 1, 1, 0)}[op]
    n = number_of(table[2 * a + b] for a, b in zip(bits_of(dst, w), bits_of(src, w)))
    return result(n, w, flags >> 3, 0)


def invert(src, w, flags):
    return result(number_of(1 - b for b in bits_of(src, w)), w, flags >> 3, 0)


def shift(op, dst, c, w):
    """One bit at a time. A shift to the left overflows where the sign changes at any time."""
    bits, cy, ov = bits_of(dst, w), 0, 0
    sign = bits[-1]
    for _ in range(abs(c)):
        if c > 0:
            cy, bits = bits[-1], [0] + bits[:-1]
            ov |= bits[-1] != sign
        else:
            cy, bits = bits[0], bits[1:] + [sign if op == "sha" else 0]
    if op == "shl" or c < 0:
        ov = 0
    return result(number_of(bits), w, cy, ov)


def shift_by_rule(op, dst, c, w):
    """The same by the numbers."""
    z = signed(dst, w) if op == "sha" else dst
    if c >= 0:
        n, cy = dst * 2 ** c % 2 ** w, dst * 2 ** c // 2 ** w % 2 if c else 0
        ov = op == "sha" and not fits(z * 2 ** c, w)
    else:
        n, cy, ov = z // 2 ** -c % 2 ** w, z // 2 ** (-c - 1) % 2, 0
    return result(n, w, cy, ov)


def rotate(dst, c, w):
    """One bit at a time; the bit that came over last goes to CY."""
    bits, cy = bits_of(dst, w), 0
    for _ in range(abs(c)):
        if c > 0:
            cy, bits = bits[-1], [bits[-1]] + bits[:-1]
        else:
            cy, bits = bits[0], bits[1:] + [bits[0]]
    return result(number_of(bits), w, cy, 0)


def condition(c, flags):
    cy, ov, s, z = (flags >> 3) & 1, (flags >> 2) & 1, (flags >> 1) & 1, flags & 1
    less = s != ov
    return {
        0x0: ov == 1, 0x1: ov == 0,
        0x2: cy == 1, 0x3: cy == 0,
        0x4: z == 1, 0x5: z == 0,
        0x6: cy == 1 or z == 1, 0x7: cy == 0 and z == 0,
        0x8: s == 1, 0x9: s == 0,
        0xA: True, 0xB: False,
        0xC: less, 0xD: not less,
        0xE: z == 1 or less, 0xF: z == 0 and not less,
    }[c & 15]


def extend(op, n, w, to):
    bits = bits_of(n, w)
    fill = bits[-1] if op == "movs" else 0
    return "%x" % number_of(bits + [fill] * (to - w))


def case(op, w, dst, src, flags, answer):
    cases.append("%s %s %x %s %x" % (op, w, dst, src, flags))
    answers.append(answer)


for w in (8, 16, 32):
    top = 2 ** (w - 1)
    edges = [0, 1, top - 1, top, 2 * top - 1]
    for dst in edges:
        for src in edges:
            for carry in (0, 1):
                flags = 0b1111 * carry
                case("add", w, dst, "%x" % src, flags, add(dst, src, w, carry))
                case("sub", w, dst, "%x" % src, flags, subtract(dst, src, w, carry))
                for op in ("and", "or", "xor"):
                    case(op, w, dst, "%x" % src, flags, logic(op, dst, src, w, flags))
    for src in edges:
        for flags in range(16):
            case("not", w, 0, "%x" % src, flags, invert(src, w, flags))
            case("test", w, 0, "%x" % src, flags, result(src, w, 0, 0))
        for flags in (0, 15):
            case("inc", w, 0, "%x" % src, flags, add(src, 1, w, 0))
            case("dec", w, 0, "%x" % src, flags, subtract(src, 1, w, 0))
            case("neg", w, 0, "%x" % src, flags, subtract(0, src, w, 0))
    for dst in (0, 1, top // 2, top - 1, top, top + 1, top // 2 * 3, 2 * top - 1, 0xB4F1965A % (2 * top)):
        for c in range(-128, 128):
            for op in ("shl", "sha"):
                assert shift(op, dst, c, w) == shift_by_rule(op, dst, c, w)
                case(op, w, dst, str(c), 15, shift(op, dst, c, w))
            case("rot", w, dst, str(c), 15, rotate(dst, c, w))
for c in list(range(16)) + [0x10, 0x2B, 0xFC]:
    for flags in range(16):
        case("if", 8, c, "0", flags, "true" if condition(c, flags) else "false")
for w, to in ((8, 16), (8, 32), (16, 32)):
    for n in [0, 1, 2 ** (w - 1) - 1, 2 ** (w - 1), 2 ** (w - 1) + 1, 2 ** w - 1]:
        for op in ("movs", "movz"):
            case(op, w, n, str(to), 0, extend(op, n, w, to))
for w in (8, 16, 32, 64):
    for n in (0, 0x0123456789ABCDEF, 0xFEDCBA9876543210, 2 ** 64 - 1):
        low = number_of(bits_of(n, w))
        for place in list(range(10)) + [2 ** 32 - 1]:
            byte = number_of(bits_of(low >> 8 * place, 8)) if place < 10 else 0
            case("bytes", w, n, str(place), 0, "%x %x %d" % (byte, low, w // 8))
# a width is read as a number, and a condition has none
for w in ("08", "+8", "0008"):
    case("add", w, 0x7F, "1", 0, add(0x7F, 1, 8, 0))
    case("bytes", w, 0xFEDC, "0", 0, "dc dc 1")
for to in ("032", "+32"):
    case("movs", "08", 0x80, to, 0, extend("movs", 0x80, 8, 32))
for w in (0, 7, 64, 2 ** 32 - 1):
    for flags in (0, 15):
        case("if", w, 4, "0", flags, "true" if condition(4, flags) else "false")

for name, lines in (("stdin", cases), ("stdout", answers)):
    with open(os.path.join(HERE, name), "w") as f:
        f.write("\n".join(lines) + "\n")
