#!/usr/bin/env python3
"""Writes stdin (cases) and stdout (what they should come to) beside this script.

The machine below is a reading of docs/RULES.md of its own, made apart from the Rattle code: memory is a dictionary,
numbers are Python's, an operand is a function that finds its address when its turn comes, and a refusal is an
exception. Worked examples, whose results were written down by hand, check the machine before anything is written.

A case is a line of words, numbers hexadecimal where nothing else is said:

    STEPS PC FLAGS PART PART PART PART PART [Rn=VALUE ..] [@ADDRESS=BYTES ..]

STEPS is decimal, the number of steps that are tried. FLAGS are four binary digits, CY OV S Z. The parts are RAM, ROM,
RAM, ROM and RAM in rising order, each BASE+COUNT; other addresses have no right. Rn (n decimal) presets a register; any
other is n+1 in each of its four bytes. A byte of memory that @ does not set is the low byte of its address with the
bits of 5Ah turned over.

Each step that is tried answers a line:

    ok|NUMBER@PLACE PC FLAGS [Rn=VALUE ..] [r RUN ..] [w STEP:RUN ..] [m RUN ..]

NUMBER is decimal. After the outcome come the PC, the flags, the registers that differ from the case's start, the lines
that the step added to the reads sheet and to the writes sheet, and the bytes of memory that differ from the case's
start. A run is ADDRESS:BYTES, lines at successive addresses (on the writes sheet of one step).
"""
import os
import random

HERE = os.path.dirname(os.path.abspath(__file__))
MASK = 0xFFFFFFFF
KINDS = ("ram", "rom", "ram", "rom", "ram")
# ROM at 0800h and 1800h, RAM at 1000h and 2000h, nothing between them
PLAIN = ((0, 0), (0x800, 0x40), (0x1000, 0x100), (0x1800, 0x40), (0x2000, 0x100))
# RAM at both ends of the addresses, so that what runs past FFFFFFFFh goes on at 0
WRAP = ((0, 0x100), (0x800, 0x40), (0x1000, 0x100), (0x1800, 0x40), (0xFFFFFF00, 0x100))
# the sheets that the program has; a step is tried only with 300 and 256 lines free
READS, WRITES = 1024, 1024


# ---------------------------------------------------------------------------------------------------- the machine

class Refused(Exception):
    def __init__(self, number, place):
        self.number, self.place = number, place & MASK


class Immediate:
    def __init__(self, value):
        self.value = value


class Register:
    def __init__(self, n):
        self.n = n


class Memory:
    """An operand in memory; find answers its address, fetches pointers and moves registers on the way."""
    def __init__(self, find):
        self.find = find


# opcode: name, bytes and access of the first operand, bytes and access of the second
TWO = {
    0x09: ("MOV", 1, "r", 1, "w"), 0x1B: ("MOV", 2, "r", 2, "w"),
    0x2D: ("MOV", 4, "r", 4, "w"), 0x3F: ("MOV", 8, "r", 8, "w"),
    0x0A: ("MOVS", 1, "r", 2, "w"), 0x0C: ("MOVS", 1, "r", 4, "w"), 0x1C: ("MOVS", 2, "r", 4, "w"),
    0x0B: ("MOVZ", 1, "r", 2, "w"), 0x0D: ("MOVZ", 1, "r", 4, "w"), 0x1D: ("MOVZ", 2, "r", 4, "w"),
}
# opcode with m = 0: name, bytes and access of the operand
ONE = {0xEE: ("PUSH", 4, "r"), 0xE6: ("POP", 4, "w"), 0xD6: ("JMP", 1, "n"), 0xE8: ("JSR", 1, "n")}
for _i, _n in enumerate((1, 2, 4)):
    TWO[0x40 + 2 * _i] = ("MOVEA", _n, "n", 4, "w")
    for _op, _name in ((0x80, "ADD"), (0x90, "ADDC"), (0xA8, "SUB"), (0x98, "SUBC"),
                       (0xA0, "AND"), (0x88, "OR"), (0xB0, "XOR")):
        TWO[_op + 2 * _i] = (_name, _n, "r", _n, "rw")
    TWO[0xB8 + 2 * _i] = ("CMP", _n, "r", _n, "r")
    TWO[0x39 + 2 * _i] = ("NEG", _n, "r", _n, "w")
    TWO[0x38 + 2 * _i] = ("NOT", _n, "r", _n, "w")
    for _op, _name in ((0xA9, "SHL"), (0xB9, "SHA"), (0x89, "ROT")):
        TWO[_op + 2 * _i] = (_name, 1, "r", _n, "rw")
    ONE[0xD8 + 2 * _i] = ("INC", _n, "rw")
    ONE[0xD0 + 2 * _i] = ("DEC", _n, "rw")
    ONE[0xF0 + 2 * _i] = ("TEST", _n, "r")
STRINGS = {0x08: "MOVC", 0x0A: "MOVCF", 0x0C: "MOVCS"}
SERVED = (set(TWO) | set(ONE) | {op + 1 for op in ONE} | {0x48, 0x58, 0x5A, 0xCA, 0xCD}
          | {op for op in range(0x60, 0x80) if op & 15 != 11})
assert len(SERVED) == 113


def signed(number, bits):
    return number - (1 << bits) if number >> (bits - 1) & 1 else number


def with_sign(result, w, cy, ov):
    """A result of w bits and its flags."""
    return result, (int(cy), int(ov), result >> (w - 1), int(result == 0))


def exact(w, plain, with_signs):
    """The flags of a sum or difference, from what it comes to without a limit, unsigned and signed."""
    ov = not -(1 << (w - 1)) <= with_signs < 1 << (w - 1)
    return with_sign(plain % (1 << w), w, not 0 <= plain < 1 << w, ov)


def shifted(name, w, count, dst):
    c = signed(count, 8)
    if name == "ROT":
        turn = c % w
        result = (dst << turn | dst >> (w - turn)) % (1 << w)
        return with_sign(result, w, c > 0 and result & 1 or c < 0 and result >> (w - 1), 0)
    value = signed(dst, w) if name == "SHA" else dst
    if c < 0:
        return with_sign((value >> -c) % (1 << w), w, value >> (-c - 1) & 1, 0)
    product = value << c
    ov = name == "SHA" and not -(1 << (w - 1)) <= product < 1 << (w - 1)
    return with_sign(product % (1 << w), w, c > 0 and product >> w & 1, ov)


def computed(name, size, src, dst, flags):
    """What an operation of that many bytes comes to, and the flags then."""
    w, cy = 8 * size, flags[0]
    if name in ("SHL", "SHA", "ROT"):
        return shifted(name, w, src, dst)
    if name in ("ADD", "ADDC", "INC"):
        more = cy if name == "ADDC" else 0
        return exact(w, dst + src + more, signed(dst, w) + signed(src, w) + more)
    if name in ("SUB", "SUBC", "CMP", "NEG", "DEC"):
        less = cy if name == "SUBC" else 0
        return exact(w, dst - src - less, signed(dst, w) - signed(src, w) - less)
    if name == "TEST":
        return with_sign(src, w, 0, 0)
    bits = {"AND": dst & src, "OR": dst | src, "XOR": dst ^ src, "NOT": ~src}[name]
    return with_sign(bits % (1 << w), w, cy, 0)


def holds(condition, flags):
    cy, ov, s, z = flags
    yes = {0: ov, 2: cy, 4: z, 6: cy or z, 8: s, 10: 1, 12: s != ov, 14: z or s != ov}[condition & 14]
    return bool(yes) != bool(condition & 1)


class Step:
    """One step, on a working copy of the registers."""
    def __init__(self, machine):
        self.machine, self.regs, self.flags, self.pc = machine, list(machine.regs), machine.flags, machine.pc
        self.count = 0      # instruction bytes fetched
        self.own = {}       # bytes that the step has set, in order
        self.target = None  # where the PC goes, if not on

    # bytes

    def fetch(self, address):
        address &= MASK
        m = self.machine
        if address in self.own:
            return self.own[address]
        if address not in m.memory:
            raise Refused(10, address)
        if address not in m.listed:
            m.listed.add(address)
            m.reads.append((address, m.memory[address]))
        return m.memory[address]

    def number(self, address, size):
        return sum(self.fetch(address + i) << 8 * i for i in range(size))

    def ask(self, address, size):
        for i in range(size):
            if address + i & MASK not in self.machine.writable:
                raise Refused(10, address + i)

    def put(self, address, size, value):
        for i in range(size):
            self.own[address + i & MASK] = value >> 8 * i & 255

    def code(self):
        byte = self.fetch(self.pc + self.count)
        self.count += 1
        return byte

    def data(self, size):
        return sum(self.code() << 8 * i for i in range(size))

    def displacement(self, size):
        return signed(self.data(size), 8 * size)

    def here(self):
        return self.pc + self.count

    # decoding operands

    def judge_register(self, n, size, access, place):
        if size == 8 and n == 31:
            raise Refused(18, place)
        if access == "n":
            raise Refused(19, place)
        return Register(n)

    def judge_immediate(self, size, access, place):
        if access != "r":
            raise Refused(19, place)
        if size == 8:
            raise Refused(18, place)

    def address_form(self, top, n):
        """What is an address by a mode byte with m = 0, alone or behind an index; nothing for any other mode."""
        if top == 3:
            return lambda: self.regs[n]
        if top < 7:
            d = self.displacement(1 << top % 4)
            near = lambda: self.regs[n] + d
            through = top >= 4
        elif n in (0x10, 0x11, 0x12, 0x18, 0x19, 0x1A):
            d = self.displacement(1 << n % 4)
            near = lambda: self.pc + d
            through = n >= 0x18
        elif n in (0x13, 0x1B):
            d = self.data(4)
            near = lambda: d
            through = n == 0x1B
        else:
            return None
        return (lambda: self.number(near(), 4)) if through else near

    def double(self, base, size):
        d1 = self.displacement(size)
        d2 = self.displacement(size)
        return Memory(lambda: self.number(base() + d1, 4) + d2)

    def listed_mode(self, n, size, access, place):
        """The modes of top bits 7 that are no address forms."""
        if n < 0x10:
            self.judge_immediate(size, access, place)
            return Immediate(n)
        if n == 0x14:
            self.judge_immediate(size, access, place)
            return Immediate(self.data(size))
        if 0x1C <= n <= 0x1E:
            return self.double(lambda: self.pc, 1 << n - 0x1C)
        raise Refused(18, place)

    def moved(self, n, by, before):
        """[Rn+] and [-Rn]: the register moves, and the address is what it held before or after."""
        old = self.regs[n]
        self.regs[n] = old + by & MASK
        return old if before else self.regs[n]

    def operand(self, m, size, access):
        place = self.here()
        top, n = divmod(self.code(), 32)
        if m == 0:
            form = self.address_form(top, n)
            return Memory(form) if form else self.listed_mode(n, size, access, place)
        if top < 3:
            return self.double(lambda: self.regs[n], 1 << top)
        if top == 3:
            return self.judge_register(n, size, access, place)
        if top == 4:
            return Memory(lambda: self.moved(n, size, True))
        if top == 5:
            return Memory(lambda: self.moved(n, -size, False))
        if top == 6:
            form = self.address_form(*divmod(self.code(), 32))
            if form:
                return Memory(lambda: form() + self.regs[n] * size)
        raise Refused(18, place)

    def pair(self, size1, access1, size2, access2):
        place = self.here()
        c = self.code()
        if c & 0x80:
            if c & 31:
                raise Refused(16, self.pc)
            first = self.operand(c >> 6 & 1, size1, access1)
            return first, self.operand(c >> 5 & 1, size2, access2)
        if c & 0x20:
            second = self.judge_register(c & 31, size2, access2, place)
            return self.operand(c >> 6 & 1, size1, access1), second
        first = self.judge_register(c & 31, size1, access1, place)
        return first, self.operand(c >> 6 & 1, size2, access2)

    # operands at work; a place is an Immediate, a Register or an address

    def place(self, operand):
        return operand.find() & MASK if isinstance(operand, Memory) else operand

    def value(self, place, size):
        if isinstance(place, Immediate):
            return place.value
        if isinstance(place, Register):
            both = self.regs[place.n] | (self.regs[place.n + 1] << 32 if size == 8 else 0)
            return both % (1 << 8 * size)
        return self.number(place, size)

    def result(self, place, size, value):
        if not isinstance(place, Register):
            self.ask(place, size)
            self.put(place, size, value)
        elif size == 8:
            self.regs[place.n], self.regs[place.n + 1] = value & MASK, value >> 32
        else:
            kept = self.regs[place.n] >> 8 * size << 8 * size
            self.regs[place.n] = kept | value

    # instructions

    def two(self, name, size1, access1, size2, access2):
        first, second = self.pair(size1, access1, size2, access2)
        a = self.place(first)
        src = self.value(a, size1) if access1 == "r" else a
        b = self.place(second)
        dst = self.value(b, size2) if "r" in access2 else 0
        if name == "MOVS":
            out = signed(src, 8 * size1) % (1 << 8 * size2)
        elif name in ("MOV", "MOVZ", "MOVEA"):
            out = src
        else:
            out, self.flags = computed(name, size2, src, dst, self.flags)
        if "w" in access2:
            self.result(b, size2, out)

    def push(self, word):
        self.regs[31] = self.regs[31] - 4 & MASK
        self.ask(self.regs[31], 4)
        self.put(self.regs[31], 4, word)

    def pop(self):
        word = self.number(self.regs[31], 4)
        self.regs[31] = self.regs[31] + 4 & MASK
        return word

    def one(self, name, m, size, access):
        operand = self.operand(m, size, access)
        after = self.here() & MASK
        word = self.pop() if name == "POP" else None
        place = self.place(operand)
        if name == "POP":
            self.result(place, 4, word)
        elif name == "PUSH":
            self.push(self.value(place, 4))
        elif name in ("JMP", "JSR"):
            if name == "JSR":
                self.push(after)
            self.target = place
        elif name == "TEST":
            self.flags = computed(name, size, self.value(place, size), 0, self.flags)[1]
        else:
            out, self.flags = computed(name, size, 1, self.value(place, size), self.flags)
            self.result(place, size, out)

    def string_operand(self, m, size):
        operand = self.operand(m, size, "n")
        place = self.here()
        c = self.code()
        if c & 0x80 and c & 0x60:
            raise Refused(20, place)
        return operand, c, place

    def length(self, c, place):
        count = self.regs[c & 31] if c & 0x80 else c
        if count > 128:
            raise Refused(70, place)
        return count

    def string(self, size):
        c = self.code()
        if c & 31 not in STRINGS:
            raise Refused(16, self.pc)
        src, src_code, src_place = self.string_operand(c >> 6 & 1, size)
        dst, dst_code, dst_place = self.string_operand(c >> 5 & 1, size)
        src_length = self.length(src_code, src_place)
        dst_length = self.length(dst_code, dst_place)
        source, destination = self.place(src), self.place(dst)
        self.characters(STRINGS[c & 31], size, source, src_length, destination, dst_length)

    def characters(self, name, size, source, src_length, destination, dst_length):
        special = self.regs[26] % (1 << 8 * size)
        copied, met = 0, False
        while copied < min(src_length, dst_length):
            character = self.number(source + copied * size, size)
            if name == "MOVCS" and character == special:
                met = True
                break
            self.ask(destination + copied * size, size)
            self.put(destination + copied * size, size, character)
            copied += 1
        stored = copied
        while name == "MOVCF" and stored < dst_length:
            self.ask(destination + stored * size, size)
            self.put(destination + stored * size, size, special)
            stored += 1
        self.regs[28] = source + copied * size & MASK
        self.regs[27] = destination + stored * size & MASK
        if name == "MOVCS":
            self.flags = (int(not met),) + self.flags[1:]

    def run(self):
        op = self.code()
        if op not in SERVED:
            raise Refused(16, self.pc)
        if op in TWO:
            self.two(*TWO[op])
        elif op & 0xFE in ONE:
            name, size, access = ONE[op & 0xFE]
            self.one(name, op & 1, size, access)
        elif op in (0x58, 0x5A):
            self.string(1 if op == 0x58 else 2)
        elif op == 0x48:
            d = self.displacement(2)
            self.push(self.here() & MASK)
            self.target = self.pc + d
        elif op == 0xCA:
            self.target = self.pop()
        elif op != 0xCD:
            d = self.displacement(1 if op < 0x70 else 2)
            if holds(op & 15, self.flags):
                self.target = self.pc + d
        self.pc = (self.here() if self.target is None else self.target) & MASK


class Machine:
    def __init__(self, case):
        self.memory, self.writable = {}, set()
        for kind, (base, count) in zip(KINDS, case.parts):
            addresses = range(base, min(base + count, MASK + 1))
            self.memory.update((a, a & 255 ^ 0x5A) for a in addresses)
            if kind == "ram":
                self.writable.update(addresses)
        self.memory.update(case.bytes)
        self.first_memory = dict(self.memory)
        self.regs = [case.regs.get(n, (n + 1) * 0x01010101) for n in range(32)]
        self.first_regs = list(self.regs)
        self.pc = case.pc
        self.flags = tuple(case.flags >> i & 1 for i in (3, 2, 1, 0))
        self.reads, self.writes, self.listed, self.done = [], [], set(), 0

    def step(self):
        """Tries a step; answers the refusal, if there is one."""
        assert len(self.reads) + 300 <= READS and len(self.writes) + 256 <= WRITES
        step = Step(self)
        try:
            step.run()
        except Refused as refused:
            return refused
        self.done += 1
        self.regs, self.flags, self.pc = step.regs, step.flags, step.pc
        for address, byte in step.own.items():
            self.memory[address] = byte
            self.writes.append((self.done, address, byte))
            self.listed.add(address)
        return None

    def line(self):
        """The line that a step answers."""
        reads, writes = len(self.reads), len(self.writes)
        refused = self.step()
        words = [f"{refused.number}@{refused.place:X}" if refused else "ok", f"{self.pc:X}",
                 "".join(map(str, self.flags))]
        words += [f"R{n}={v:X}" for n, v in enumerate(self.regs) if v != self.first_regs[n]]
        changed = [(a, b) for a, b in sorted(self.memory.items()) if self.first_memory[a] != b]
        for letter, lines in (("r", [("", a, b) for a, b in self.reads[reads:]]),
                              ("w", [(f"{n}:", a, b) for n, a, b in self.writes[writes:]]),
                              ("m", [("", a, b) for a, b in changed])):
            words += [letter] * bool(lines) + runs(lines)
        return " ".join(words)


def runs(lines):
    """Lines of a prefix, an address and a byte, with those at successive addresses joined."""
    out, before = [], None
    for prefix, address, byte in lines:
        if before != (prefix, address - 1 & MASK):
            out.append(f"{prefix}{address:X}:")
        out[-1] += f"{byte:02X}"
        before = (prefix, address)
    return out


# ------------------------------------------------------------------------------------------------------- a case

class Case:
    def __init__(self, code="", regs=None, flags=0, memory=None, pc=0x1000, parts=PLAIN, steps=1):
        for (base, count), (after, _) in zip(parts, parts[1:]):
            assert base + count <= after
        self.steps, self.pc, self.flags, self.parts = steps, pc & MASK, flags, parts
        self.regs, self.bytes = {n: v & MASK for n, v in (regs or {}).items()}, {}
        for address, data in (memory or {}).items():
            self.poke(address, data)
        self.poke(pc, code)

    def poke(self, address, data):
        """Sets bytes; those that lie where there is no memory are left out."""
        data = bytes.fromhex(data) if isinstance(data, str) else bytes(data)
        for i, byte in enumerate(data):
            a = address + i & MASK
            if any(base <= a < base + count for base, count in self.parts):
                self.bytes[a] = byte

    def text(self):
        words = [str(self.steps), f"{self.pc:X}", f"{self.flags:04b}"]
        words += [f"{base:X}+{count:X}" for base, count in self.parts]
        words += [f"R{n}={v:X}" for n, v in sorted(self.regs.items())]
        given = sorted((a, b) for a, b in self.bytes.items())
        words += [f"@{run.replace(':', '=')}" for run in runs([("", a, b) for a, b in given])]
        return " ".join(words)

    def answers(self):
        machine = Machine(self)
        return [machine.line() for _ in range(self.steps)]


# ---------------------------------------------------------------------------------------------- worked examples

# opcode, R1, R2, flags before (CY OV S Z); R2 and the flags after; the code is OPCODE 41 62, R1 first and R2 second
WORKED_NUMBERS = """
80 1 7F 0000 80 0110          80 1 123456FF 0000 12345600 1001   80 80 80 0000 0 1101
90 0 7F 1000 80 0110          90 FF FF 1000 FF 1010              90 FF 80 1000 80 1010
A8 1 0 0000 FF 1010           A8 1 80 0000 7F 0100               98 FF 7F 1000 7F 1000
98 0 80 1000 7F 0100          98 FF 0 1000 0 1001                BC 5 3 0000 3 1010
39 80 0 0000 80 1110          39 0 FF 1000 0 0001                39 1 0 0000 FF 1010
3A FFFF ABCD1234 1100 ABCD0000 1001                              A0 F0 8F 1100 80 1010
A9 0 80 1100 80 0010          A9 1 80 0000 0 1001                A9 8 81 0000 0 1001
A9 9 FF 0000 0 0001           A9 FF 81 0000 40 1000              A9 F8 80 0000 0 1001
A9 F7 FF 0000 0 0001          AD 80 FFFFFFFF 0000 0 0001         AD 20 1 0000 0 1001
B9 1 40 0000 80 0110          B9 1 C0 0000 80 1010               B9 1 80 0000 0 1101
B9 7 FF 0000 80 1010          B9 8 FF 0000 0 1101                B9 7F 0 0000 0 0001
B9 0 80 1100 80 0010          B9 FF 81 0000 C0 1010              B9 F9 80 0000 FF 0010
B9 80 80 0000 FF 1010         B9 80 7F 0000 0 0001               89 0 81 1100 81 0010
89 1 80 0000 1 1000           89 FF 1 0000 80 1010               89 8 81 0000 81 1010
89 F8 81 0000 81 1010         8B 11 8000 0000 1 1000             8D 80 80000001 0000 80000001 1010
0A 80 12345678 0000 1234FF80 0000
"""

# code | registers, memory and flags before | what must hold after: registers, PC, F flags, W writes lines, the number
# of reads lines, or the refusal; RAM is 1000h-10FFh
WORKED_STEPS = """
2D21E5         |                                      | R1=5 PC=1003 reads=3
2D21           | PC=10FE                              | no=10@1100 reads=2
2D01F310100000 | R1=11223344                          | W1010=44332211
B44182         | R1=FFFFFFFF R2=1020 @1020=FFFFFFFF   | W1020=00000000 R2=1024 F=0001
4464C30208     | R2=2000 R3=FFFFFFFF                  | R4=2004
2D01E5         |                                      | no=19@1002
2D41E0         |                                      | no=18@1002
580861836282   | R2=0 R3=81                           | no=70@1003
580861836282   | R1=2000 R2=0 R3=80                   | PC=1006 R28=2000 R27=0
580861036202   | R1=1020 R2=1021 @1020=414243         | W1021=4141 R28=1022 R27=1023 reads=7
4425F000       |                                      | R5=1000
D962           | R2=1FF                               | R2=100 F=1001
D162           | R2=100                               | R2=1FF F=1010
DD62           | R2=7FFFFFFF                          | R2=80000000 F=0110
F0E0           | F=1100                               | F=0001
F561           | R1=80000000 F=1000                   | F=0010
AD21F4FF       | R1=3                                 | R1=1 F=1000 PC=1004
EF7F           | R31=1080                             | W107C=80100000 R31=107C
EEE5           | R31=1080                             | W107C=05000000 R31=107C
EF9F           | R31=1080 @1080=01020304              | W1080=01020304 R31=1080 reads=6
EFBF           | R31=1080 @107C=0A0B0C0D              | W1078=0A0B0C0D R31=1078
E77F           | R31=1080 @1080=01020304              | R31=4030201
E79F           | R31=1080 @1080=01020304              | W1084=01020304 R31=1088
E61F00         | R31=1080 @1080=01020304              | W1084=01020304 R31=1084
E7BF           | R31=1080 @1080=01020304              | W1080=01020304 R31=1080
E87F           | R31=1080                             | PC=1080 W107C=02100000 R31=107C
E99F           | R31=1080                             | PC=1080 W107D=02100000 R31=107D
D781           | R1=1080                              | PC=1080 R1=1081
48FEFF         | R31=1080                             | PC=FFE W107C=03100000
CA             | R31=1080 @1080=00100000              | PC=1000 R31=1084 reads=5
6A00           |                                      | PC=1000
7A1000         |                                      | PC=1010
096383         | R3=10FF @10FF=AA                     | R3=11AA
846383         | R3=1040 @1040=05000000               | R3=1049
2D4383         | R3=1040                              | W1040=40100000 R3=1044
2D43A3         | R3=1040                              | W103C=40100000 R3=103C
426181         | R1=1040                              | R1=1040
4262A1         | R1=1040                              | R1=103E R2=103E
3F5E61         | R30=7 R31=9                          | R1=7 R2=9
2DE08383       | R3=1020 @1020=01020304               | W1024=01020304 R3=1028
2DE083C364     | R3=1020 R4=FFFFCFB0 @1020=01020304   | W1040=01020304 R3=1024
0CE0B4B4       | R20=1048 @1047=90                    | W1043=90FFFFFF R20=1043
6B00           |                                      | no=16@1000 reads=1
7B0000         |                                      | no=16@1000 reads=1
99             |                                      | no=16@1000 reads=1
2D81           |                                      | no=16@1000 reads=2
5809           |                                      | no=16@1000 reads=2
3F5F61         |                                      | no=18@1001 reads=2
3F7F61         |                                      | no=18@1001 reads=2
3FE07F61       |                                      | no=18@1002 reads=3
3F21E5         |                                      | no=18@1002 reads=3
3F21F4         |                                      | no=18@1002 reads=3
3F01E5         |                                      | no=19@1002 reads=3
440162         |                                      | no=19@1001 reads=2
44E06162       |                                      | no=19@1002 reads=3
4424E1         |                                      | no=19@1002 reads=3
D8E5           |                                      | no=19@1001 reads=2
D6E5           |                                      | no=19@1001 reads=2
D761           |                                      | no=19@1001 reads=2
E8F4           |                                      | no=19@1001 reads=2
2D21F5         |                                      | no=18@1002 reads=3
2D21FF         |                                      | no=18@1002 reads=3
2D61C1E5       |                                      | no=18@1002 reads=4
2D61C1F4       |                                      | no=18@1002 reads=4
2D61C1FC       |                                      | no=18@1002 reads=4
584861         |                                      | no=19@1002 reads=3
5808E1         |                                      | no=19@1002 reads=3
5828610362     |                                      | no=19@1004 reads=5
580861E0       |                                      | no=20@1003 reads=4
580861A0       |                                      | no=20@1003 reads=4
580A61016204   | R1=1040 R2=1050 R26=12345678 @1040=41 | W1050=41787878 R28=1041 R27=1054 reads=7
580C61036203   | R1=1040 R2=1050 R26=42 @1040=414243 F=1000 | W1050=41 R28=1041 R27=1051 F=0000 reads=8
580C61036201   | R1=1040 R2=1050 R26=42 @1040=414243  | W1050=41 R28=1041 R27=1051 F=1000 reads=7
580C61006203   | R1=1040 R2=1050 R26=42 @1040=414243  | R28=1040 R27=1050 F=1000 reads=6
586881038203   | R1=1040 R2=1050 @1040=414243         | W1050=414243 R1=1041 R2=1051 R28=1043 R27=1053 reads=9
5A0861026202   | R1=1040 R2=1041 @1040=01020304       | W1041=01020204 R28=1044 R27=1045 reads=9
"""
# two codes that come to the same registers, flags and bytes
WORKED_PAIRS = (("DD62", "8422E1"), ("D562", "AC22E1"), ("EF61", "2D41BF"), ("E762", "2D629F"))
RAM_ONLY = ((0, 0), (0, 0), (0x1000, 0x100), (0x1100, 0), (0x1100, 0))


def worked_numbers():
    fields = WORKED_NUMBERS.split()
    for op, r1, r2, before, after, flags in zip(*(fields[i::6] for i in range(6))):
        case = Case(op + "4162", {1: int(r1, 16), 2: int(r2, 16)}, int(before, 2), parts=RAM_ONLY)
        machine = Machine(case)
        assert machine.step() is None
        got = (machine.regs[2], "".join(map(str, machine.flags)))
        assert got == (int(after, 16), flags), (op, r1, r2, got)
        yield case


def given(code, words, parts=RAM_ONLY):
    """A case by words as they stand in the table of worked steps."""
    regs, memory, flags, pc = {}, {}, 0, 0x1000
    for word in words:
        name, value = word.split("=")
        if name == "PC":
            pc = int(value, 16)
        elif name == "F":
            flags = int(value, 2)
        elif name[0] == "@":
            memory[int(name[1:], 16)] = value
        else:
            regs[int(name[1:])] = int(value, 16)
    return Case(code, regs, flags, memory, pc, parts)


def check_worked(machine, refused, code, words):
    for word in words:
        name, value = word.split("=")
        if name == "no":
            assert refused and f"{refused.number}@{refused.place:X}" == value, (code, refused)
        elif name == "reads":
            assert len(machine.reads) == int(value), (code, machine.reads)
        elif name == "PC":
            assert machine.pc == int(value, 16), code
        elif name == "F":
            assert "".join(map(str, machine.flags)) == value, (code, machine.flags)
        elif name[0] == "W":
            lines = [(1, int(name[1:], 16) + i, b) for i, b in enumerate(bytes.fromhex(value))]
            assert machine.writes == lines, (code, machine.writes)
        else:
            assert machine.regs[int(name[1:])] == int(value, 16), (code, name, machine.regs)


def worked_steps():
    for row in WORKED_STEPS.strip().splitlines():
        code, before, after = (part.strip() for part in row.split("|"))
        case = given(code, before.split())
        machine = Machine(case)
        refused = machine.step()
        assert (refused is not None) == after.startswith("no="), code
        check_worked(machine, refused, code, after.split())
        assert "W" in after or not machine.writes, code
        yield case
    case = Case("2D21", pc=0x10FE, parts=RAM_ONLY, steps=2)
    machine = Machine(case)
    assert machine.step().place == 0x1100 and machine.step().place == 0x1100 and len(machine.reads) == 2
    yield case


def worked_pairs():
    for one, other in WORKED_PAIRS:
        for value in (0, 1, 0x7FFFFFFF, 0x80000000, MASK, 0x12345678):
            regs = {1: value, 2: value, 31: 0x1080}
            memory = {0x1080: (value ^ 0xFF).to_bytes(4, "little")}
            cases = [Case(code, regs, 0b1010, memory) for code in (one, other)]
            machines = [Machine(case) for case in cases]
            left = [(m.step(), m.regs, m.flags, m.writes) for m in machines]
            assert left[0] == left[1] and left[0][0] is None, one
            yield from cases


def worked_elsewhere():
    """Examples that want other memory."""
    case = Case("586881818203", {1: 3, 2: 0x1050}, memory={3: "414243"}, parts=WRAP)
    machine = Machine(case)
    assert machine.step() is None and [b for _, _, b in machine.writes] == [0x41, 0x42, 0x43]
    assert [machine.regs[n] for n in (1, 28, 27)] == [4, 6, 0x1053]
    yield case
    case = Case("2D21E5", pc=0xFFFFFFFE, parts=WRAP)
    machine = Machine(case)
    assert machine.step() is None and machine.pc == 1 and machine.regs[1] == 5
    assert [a for a, _ in machine.reads] == [0xFFFFFFFE, MASK, 0]
    yield case
    # the longest step there is
    code = "5A6A" + "41" + "20000000" + "00010000" + "83" + "42" + "30000000" + "00020000" + "83"
    parts = ((0, 0), (0, 0), (0x1000, 0x100), (0x1100, 0), (0x2000, 0x400))
    case = Case(code, {1: 0x1000, 2: 0x1000, 3: 128}, memory={0x1020: "00200000", 0x1030: "00200000"}, parts=parts)
    machine = Machine(case)
    assert machine.step() is None
    assert (len(machine.reads), len(machine.writes), machine.pc) == (286, 256, 0x1016)
    yield case


def worked():
    yield from worked_numbers()
    yield from worked_steps()
    yield from worked_pairs()
    yield from worked_elsewhere()


# ------------------------------------------------------------------------------------------- operands by their mode

# a mode is a form, a base (a register, the PC, zero) and the displacement's size: 1, 2, 4 bytes for 0, 1, 2
SIZES = [(base, k) for base in "RP" for k in (0, 1, 2)] + [("0", 2)]
ADDRESS_FORMS = [("near",) + x for x in SIZES] + [("through",) + x for x in SIZES] + [("at", "R", 0)]
DOUBLE = [("double",) + x for x in SIZES[:-1]]
INDEXED = [("x" + form, base, k) for form, base, k in ADDRESS_FORMS]
MOVED = [("+", "R", 0), ("-", "R", 0)]
IN_REGISTER, QUICK, IMMEDIATE = ("register", "R", 0), ("quick", "", 0), ("immediate", "", 0)
MODES = ADDRESS_FORMS + DOUBLE + INDEXED + MOVED + [IN_REGISTER, QUICK, IMMEDIATE]
POINTED = [mode for mode in MODES if mode[0] in ("through", "xthrough", "double")]
assert len(MODES) == 41


def little(number, size):
    """A number that fits, with or without its sign, low byte first."""
    assert size == 4 or -(1 << 8 * size - 1) <= number < 1 << 8 * size
    return (number % (1 << 8 * size)).to_bytes(size, "little")


def edges(size, rnd):
    """Numbers of a size at which something changes, and one at random."""
    w = 8 * size
    return [0, 1, (1 << w - 1) - 1, 1 << w - 1, (1 << w) - 1, rnd.randrange(1 << w)]


class Setup:
    """A case in the making: it picks registers, displacements and pointers that lead where an operand should lie."""
    def __init__(self, rnd, pc=0x1040, parts=PLAIN, kept=(31,)):
        self.rnd, self.pc, self.parts = rnd, pc, parts
        self.free = [n for n in range(32) if n not in kept]
        rnd.shuffle(self.free)
        self.regs, self.memory = {}, {}

    def register(self, value, pair=False):
        """A register that holds a value, with the next one where it is a doubleword."""
        for n in self.free:
            if not pair or n + 1 in self.free:
                break
        self.free.remove(n)
        self.regs[n] = value & MASK
        if pair:
            self.free.remove(n + 1)
            self.regs[n + 1] = value >> 32
        return n

    def displacement(self, k):
        half = 1 << 8 * (1 << k) - 1
        return self.rnd.choice([0, 1, -1, half - 1, -half, self.rnd.randrange(-half, half)])

    def address_form(self, mode, target, pointer):
        """The bytes of a mode that leads to the target, by way of the pointer where it has one."""
        form, base, k = mode
        if form == "at":
            return bytes([0x60 | self.register(target)])
        place = target if form == "near" else pointer
        if base == "R":
            d = self.displacement(k)
            head = {"near": 0, "through": 0x80, "double": 0}[form] | k << 5 | self.register(place - d)
        elif base == "P":
            d = signed(place - self.pc & MASK, 32)
            head = {"near": 0xF0, "through": 0xF8, "double": 0xFC}[form] | k
        else:
            d = place
            head = {"near": 0xF3, "through": 0xFB}[form]
        data = bytes([head]) + little(d, 1 << k)
        if form == "double":
            d = self.displacement(k)
            data += little(d, 1 << k)
            target -= d
        if form != "near":
            self.memory[pointer] = little(target & MASK, 4)
        return data

    def operand(self, mode, size, target, pointer, value):
        """m and the bytes of an operand that lies at the target, or is the value."""
        form, base, k = mode
        if form == "register":
            upper = self.rnd.randrange(1 << 32) << 8 * size & MASK if size < 4 else 0
            return 1, bytes([0x60 | self.register(upper | value, size == 8)])
        if form == "quick":
            return 0, bytes([0xE0 | value & 15])
        if form == "immediate":
            return 0, b"\xF4" + little(value, size)
        if form == "+":
            return 1, bytes([0x80 | self.register(target)])
        if form == "-":
            return 1, bytes([0xA0 | self.register(target + size)])
        if form[0] == "x":
            near = form == "xnear" and base == "P" and k < 2
            count = self.rnd.randrange(-3, 4) if near else self.rnd.choice(edges(4, self.rnd))
            head = bytes([0xC0 | self.register(count)])
            return 1, head + self.address_form((form[1:], base, k), target - count * size, pointer)
        return int(form == "double" and base == "R"), self.address_form(mode, target, pointer)

    def case(self, code, flags=None, steps=1):
        flags = self.rnd.randrange(16) if flags is None else flags
        return Case(code, self.regs, flags, self.memory, self.pc, self.parts, steps)


def is_close(mode):
    """Whether a mode leads only to addresses close to the PC."""
    return mode[1] == "P" and mode[2] == 0


def two_code(rnd, op, modes, first, second):
    """The bytes of an instruction of two operands, each given as m and bytes; Format I where it can be, or II."""
    (m1, bytes1), (m2, bytes2) = first, second
    if modes[1] == IN_REGISTER and rnd.randrange(3):
        return bytes([op, m1 << 6 | 0x20 | bytes2[0] & 31]) + bytes1
    if modes[0] == IN_REGISTER and rnd.randrange(3):
        return bytes([op, m2 << 6 | bytes1[0] & 31]) + bytes2
    return bytes([op, 0x80 | m1 << 6 | m2 << 5]) + bytes1 + bytes2


def spots(rnd, modes):
    """Where the two operands and their pointers lie: by the PC where the mode asks for it, else also elsewhere."""
    first, second = 0x1060 + rnd.randrange(8), 0x1078 + rnd.randrange(8)
    pointer1, pointer2 = 0x1008 + rnd.randrange(4), 0x1018 + rnd.randrange(4)
    if not is_close(modes[0]):
        first = rnd.choice([first, first, 0x800 + rnd.randrange(16), 0x1828 + rnd.randrange(16), 0x2040])
        pointer1 = rnd.choice([pointer1, 0x820 + rnd.randrange(16)])
    if not is_close(modes[1]):
        second = rnd.choice([second, second, 0x2080 + rnd.randrange(16)] * 4 + [0x1810])
        pointer2 = rnd.choice([pointer2, 0x1800 + rnd.randrange(4)])
    return first, pointer1, second, pointer2


def two_case(rnd, op, modes, places=None, pc=0x1040, parts=PLAIN):
    _, size1, _, size2, _ = TWO[op]
    first, pointer1, second, pointer2 = places or spots(rnd, modes)
    setup = Setup(rnd, pc, parts, rnd.choice([(31,), ()]))
    values = rnd.choice(edges(size1, rnd)), rnd.choice(edges(size2, rnd))
    setup.memory[first] = little(values[0], size1)
    setup.memory[second] = little(values[1], size2)
    operands = (setup.operand(modes[0], size1, first, pointer1, values[0]),
                setup.operand(modes[1], size2, second, pointer2, values[1]))
    return setup.case(two_code(rnd, op, modes, *operands))


def one_case(rnd, op, mode, places=None, pc=0x1040, parts=PLAIN):
    """An instruction of one operand; the stack's word lies at the second place."""
    name, size, _ = ONE[op]
    target, pointer, stack, _ = places or spots(rnd, (mode, IN_REGISTER))
    setup = Setup(rnd, pc, parts)
    if name in ("PUSH", "POP", "JSR"):
        setup.regs[31] = stack + (0 if name == "POP" else 4)
        setup.memory[stack] = little(rnd.choice(edges(4, rnd)), 4)
    value = rnd.choice(edges(size, rnd))
    setup.memory[target] = little(value, size)
    m, data = setup.operand(mode, size, target, pointer, value)
    return setup.case(bytes([op | m]) + data)


def length_code(setup, count):
    """A length byte: a literal, or a register that holds the count."""
    if count > 127 or setup.rnd.randrange(2):
        return bytes([0x80 | setup.register(count)])
    return bytes([count])


def string_case(rnd, op, sub, modes, lengths, places=None, pc=0x1040, parts=PLAIN, special=None, chars=None):
    """A string instruction; R26 is kept for the fill or stop character."""
    size = 1 if op == 0x58 else 2
    source, pointer1, destination, pointer2 = places or spots(rnd, modes)
    setup = Setup(rnd, pc, parts, (26, 31))
    setup.regs[26] = rnd.randrange(1 << 32) if special is None else special
    if chars:
        setup.memory[source] = chars
    m1, data1 = setup.operand(modes[0], size, source, pointer1, 0)
    data1 += length_code(setup, lengths[0])
    m2, data2 = setup.operand(modes[1], size, destination, pointer2, 0)
    data2 += length_code(setup, lengths[1])
    second = sub | m1 << 6 | m2 << 5 | rnd.randrange(2) << 7
    return setup.case(bytes([op, second]) + data1 + data2)


# -------------------------------------------------------------------------------------------------- groups of cases

def register_case(rnd, op, src, dst, flags):
    """Two operands in registers, with other numbers above them where they are narrow."""
    _, size1, _, size2, _ = TWO[op]
    setup = Setup(rnd, kept=())
    modes = (IN_REGISTER, IN_REGISTER)
    operands = setup.operand(IN_REGISTER, size1, 0, 0, src), setup.operand(IN_REGISTER, size2, 0, 0, dst)
    return setup.case(two_code(rnd, op, modes, *operands), flags)


def counts(size):
    w = 8 * size
    every = {-128, -127, -w - 1, -w, -w + 1, -1, 0, 1, 2, w - 1, w, w + 1, 2 * w, 127}
    return [c & 255 for c in sorted(every)]


def numbers(rnd):
    """Every operation at every width on numbers at the edges; each meets all sixteen values of the flags."""
    for op, (name, size1, _, size2, access2) in sorted(TWO.items()):
        if name == "MOVEA":
            continue
        sources = counts(size2) if name in ("SHL", "SHA", "ROT") else edges(size1, rnd)
        targets = edges(size2, rnd) if "r" in access2 else [rnd.randrange(1 << 8 * size2)]
        flags = rnd.randrange(16)
        for src in sources:
            for dst in targets:
                flags = flags + 5 & 15
                yield register_case(rnd, op, src, dst, flags)
                if name in ("ADDC", "SUBC"):
                    yield register_case(rnd, op, src, dst, flags ^ 8)
        for flags in range(16):
            yield register_case(rnd, op, rnd.choice(sources), rnd.choice(edges(size2, rnd)), flags)
    for op, (name, size, _) in sorted(ONE.items()):
        if name in ("INC", "DEC", "TEST"):
            for i, value in enumerate(edges(size, rnd) * 3):
                setup = Setup(rnd, kept=())
                m, data = setup.operand(IN_REGISTER, size, 0, 0, value)
                yield setup.case(bytes([op | m]) + data, (i * 5 + 3) & 15)


def flags_kept(rnd):
    """Instructions that leave the flags, and branches by every condition, at all sixteen values of the flags."""
    for flags in range(16):
        for code in ("402562", "422562", "442562", "EF61", "E761", "D602FF", "E802FF", "48F0FF", "CA", "CD"):
            yield Case(code, {2: 0x1050, 31: 0x10A0}, flags)
        for op in (0x58, 0x5A):
            for sub, special in ((8, 0), (10, 0), (12, 0), (12, 0x4241)):
                code = bytes([op, sub]) + bytes.fromhex("61036203")
                chars = {0x1040: "004141424300"}
                yield Case(code, {1: 0x1041, 2: 0x1050, 26: special}, flags, chars)
        for condition in [c for c in range(16) if c != 11]:
            d = rnd.randrange(-128, 128)
            yield Case(bytes([0x60 | condition]) + little(d, 1), flags=flags, pc=0x1080)
            d = rnd.randrange(-0x8000, 0x8000)
            yield Case(bytes([0x70 | condition]) + little(d, 2), flags=flags, pc=0x1080)


def modes_everywhere(rnd):
    """Every mode as every operand of every instruction, those that are refused too."""
    for op in sorted(TWO):
        for j, mode in enumerate(MODES):
            other = rnd.choice([IN_REGISTER, rnd.choice(MODES)])
            # the opcodes of one operation differ by 2 in most cases, so that it meets each mode in both places
            yield two_case(rnd, op, (mode, other) if (op // 2 + j) % 2 else (other, mode))
    for op in sorted(ONE):
        for mode in MODES:
            yield one_case(rnd, op, mode)
    for op in (0x58, 0x5A):
        for sub in sorted(STRINGS):
            for mode in MODES:
                other = rnd.choice(ADDRESS_FORMS + INDEXED + DOUBLE + MOVED)
                for modes in ((mode, other), (other, mode)):
                    yield string_case(rnd, op, sub, modes, (rnd.randrange(5), rnd.randrange(5)))


# the ways in which register n takes part in an operand, each with m; a digit in braces and n make the mode byte
WAYS = (("R", 1, "{6}"), ("[R]", 0, "{6}"), ("[R+]", 1, "{8}"), ("[-R]", 1, "{A}"), ("4[R]", 0, "{0}04"),
        ("[-4[R]]", 0, "{8}FC"), ("4[-8[R]]", 1, "{0}F804"), ("[R4](R)", 1, "{C}64"), ("[4[R5]](R)", 1, "{C}8504"))


def way(code, n):
    return bytes([int(code[1], 16) << 4 | n]) + bytes.fromhex(code[3:])


def around(at, size):
    """Registers and memory with which every way on a register that holds `at` leads into RAM at 2000h."""
    words = {0x202C + i: little(0x2080 + i, 4) for i in range(0, 0x28, 4)}
    words[0x2064] = little(0x2090 - at * size & MASK, 4)
    return {4: 0x2020 - at * size, 5: 0x2060}, words


def same_register(rnd):
    """The same register in both operands: the second one sees what the first has changed."""
    for op in (0x09, 0x2D, 0x3F, 0x0C, 0x42, 0x84, 0x9A, 0xBA, 0xAD):
        for _, m1, first in WAYS:
            for _, m2, second in WAYS:
                n = rnd.choice([1, 3, 26, 28, 30])
                regs, words = around(0x2040, TWO[op][rnd.choice([1, 3])])
                regs[n] = 0x2040
                code = bytes([op, 0x80 | m1 << 6 | m2 << 5]) + way(first, n) + way(second, n)
                yield Case(code, regs, rnd.randrange(16), words)


def stack_register(rnd):
    """R31 in the operand of an instruction that moves it, and of others; doublewords in R30 and R31."""
    for op in sorted(ONE):
        for _, m, mode in WAYS:
            for stack in (0x2040, 0x2041, 0x2042, 0x203C):
                regs, words = around(stack, ONE[op][1])
                regs[31] = stack
                yield Case(bytes([op | m]) + way(mode, 31), regs, rnd.randrange(16), words)
    for op in (0x2D, 0x3F, 0x84, 0xBC):
        for _, m, mode in WAYS:
            for c in (30, 31, 0x20 | 30, 0x20 | 31):
                n = rnd.choice([29, 30, 31])
                regs, words = around(0x2040, TWO[op][1])
                regs.update({29: 0x2048, 30: 0x2050, 31: 0x2058, n: 0x2040})
                yield Case(bytes([op, m << 6 | c]) + way(mode, n), regs, rnd.randrange(16), words)


# RAM that ends at ROM (1000h), and RAM that ends at a hole (1200h)
EDGE = ((0xF00, 0x100), (0x1000, 0x40), (0x1100, 0x100), (0x1240, 0x40), (0x1300, 0x100))
TO_ROM, TO_HOLE = 0x1000, 0x1200
# where operands, pointers and the stack lie when nothing is wrong with them, and where all is wrong
SOUND = (0x1360, 0x1380, 0x13A0, 0x13C0)
MISSING = (0x1204, 0x120C, 0x1214, 0x121C)
FAR_POINTED = [mode for mode in POINTED if not is_close(mode)]


def one_missing(order, sizes):
    """Places of which one runs into a hole at its byte j, for each in the order of work and each j; the places after it
    in that order are sound, or missing altogether."""
    for i, which in enumerate(order):
        for j in range(sizes[which]):
            for later in (False, True):
                places = list(SOUND)
                for after in order[i + 1:]:
                    places[after] = MISSING[after] if later else SOUND[after]
                places[which] = TO_HOLE - j
                yield tuple(places)


def refused_two(rnd):
    """Refusal 10 at each byte that an instruction of two operands fetches or asks for."""
    for op in (0x09, 0x1B, 0x2D, 0x3F, 0x84, 0x92, 0xBC, 0x42, 0xAD, 0x1C, 0x3C):
        _, size1, _, size2, access2 = TWO[op]
        modes = lambda: (rnd.choice(FAR_POINTED), rnd.choice(FAR_POINTED))
        for places in one_missing((1, 0, 3, 2), (size1, 4, size2, 4)):
            yield two_case(rnd, op, modes(), places, 0x1300, EDGE)
        for j in range(size2 + 1):
            places = (SOUND[0], SOUND[1], TO_ROM - j, SOUND[3])
            yield two_case(rnd, op, modes(), places, 0x1300, EDGE)
    for op, modes in ((0x2D, (DOUBLE[2], DOUBLE[2])), (0x84, (INDEXED[2], ADDRESS_FORMS[1])),
                      (0x1B, (IMMEDIATE, ("near", "0", 2))), (0xAD, (QUICK, DOUBLE[0]))):
        for j in range(21):
            yield two_case(rnd, op, modes, SOUND, TO_HOLE - j, EDGE)


def refused_one(rnd):
    """The same for instructions of one operand; the stack is the third place."""
    for op, order in ((0xEE, (1, 0, 2)), (0xE6, (2, 1, 0)), (0xE8, (1, 2)), (0xD6, (1,)),
                      (0xDC, (1, 0)), (0xF2, (1, 0)), (0xD0, (1, 0))):
        size = ONE[op][1]
        for places in one_missing(order, (size, 4, 4, 0)):
            yield one_case(rnd, op, rnd.choice(FAR_POINTED), places, 0x1300, EDGE)
        for which in order:
            for j in range(5):
                places = list(SOUND)
                places[which] = TO_ROM - j
                yield one_case(rnd, op, rnd.choice(FAR_POINTED), tuple(places), 0x1300, EDGE)
        for j in range(11):
            yield one_case(rnd, op, DOUBLE[2], SOUND, TO_HOLE - j, EDGE)
    for edge in (TO_ROM, TO_HOLE):
        for j in range(6):
            yield Case("480040", {31: edge - j + 4}, pc=0x1300, parts=EDGE)
            yield Case("CA", {31: edge - j}, pc=0x1300, parts=EDGE)
            for code in ("480040", "CA", "CD", "6A10", "7A1000", "6110", "711000"):
                yield Case(code, {31: 0x1380}, 0b0100, pc=edge - j, parts=EDGE)


def refused_string(rnd):
    """Refusal 10 at each byte of a string instruction, with source and destination running into edges at any two."""
    for op in (0x58, 0x5A):
        size = 1 if op == 0x58 else 2
        for sub in sorted(STRINGS):
            for places in one_missing((1, 3, 0, 2), (0, 4, 0, 4)):
                modes = rnd.choice(FAR_POINTED), rnd.choice(FAR_POINTED)
                yield string_case(rnd, op, sub, modes, (2, 3), places, 0x1300, EDGE)
            for i in range(5):
                for j in range(5):
                    places = (TO_HOLE - i, 0x1380, rnd.choice([TO_ROM, 0x1400]) - j, 0x13C0)
                    lengths = (3, 3) if size == 1 else (2, 2)
                    modes = rnd.choice(FAR_POINTED), rnd.choice(FAR_POINTED)
                    yield string_case(rnd, op, sub, modes, lengths, places, 0x1300, EDGE, special=0x5A5A)
            for j in range(23):
                yield string_case(rnd, op, sub, (DOUBLE[2], DOUBLE[2]), (2, 2), SOUND, TO_HOLE - j, EDGE)
        # the fill asks only; a stop character is fetched, but no right is asked for it
        for j in range(10):
            yield string_case(rnd, op, 0x0A, (MOVED[0], MOVED[1]), (1, 4), (0x1360, 0, TO_ROM - j, 0), 0x1300, EDGE)
        for i in range(5):
            for j in range(5):
                chars = bytes(range(0x41, 0x41 + 4 * size))
                special = int.from_bytes((chars + b"\0\0")[i * size:(i + 1) * size], "little")
                yield string_case(rnd, op, 0x0C, (ADDRESS_FORMS[-1],) * 2, (4, 4), (0x1360, 0, TO_ROM - j * size, 0),
                                  0x1300, EDGE, special, chars)


def refused_bytes(rnd):
    """Length bytes with bits 5 and 6, and doublewords that may not stand where they do, in both places."""
    for length in (0x1F, 0x5F, 0x7F, 0x83, 0xA3, 0xC3, 0xE3, 0xFF, 0xBF, 0xDF, 0x9F):
        for code in (f"580861{length:02X}6204", f"5A0A610462{length:02X}", f"58CC84{length:02X}62{length:02X}"):
            yield Case(code, {1: 0x2000, 2: 0x2040, 3: 3, 4: 0x2080, 31: 2}, rnd.randrange(16))
    for code in ("21E5", "21F4", "80E562", "80F462", "A0E565", "C01FE5", "01E5", "01F4", "8062E5", "8062F4", "E065E1",
                 "E07F65", "E0657F", "A0627F", "C07F62", "1F62", "3F62", "5F62", "7F62", "21FF", "A061E0", "E0C1E565"):
        yield Case("3F" + code, {1: 0x2000, 2: 0x2040, 31: 0x2080}, rnd.randrange(16))


def refused_length(rnd):
    """Refusal 70, and what comes before it: the whole fetch of the instruction."""
    for op in ("58", "5A"):
        for sub in ("08", "0A", "0C"):
            for first in (0, 1, 128, 129, 256, 0x80000000, MASK):
                for second in (0, 128, 129, 0x180):
                    regs = {1: 0x2000, 2: 0x5000, 3: first, 4: second}
                    yield Case(op + sub + "61836284", regs, rnd.randrange(16))
    for tail in ("6283E0", "E1", "FF", "62A3", "62E3", "62C3", "6204", "627F", "6283", "628A04", "028304"):
        for first in (128, 129):
            yield Case("58086183" + tail, {1: 0x2000, 2: 0x2040, 3: first, 10: 129}, rnd.randrange(16))
            yield Case("58286183" + tail, {1: 0x2000, 2: 0x2040, 3: first, 10: 129}, rnd.randrange(16), pc=0x10FA)


def not_served(rnd):
    """Opcodes, subcodes and second bytes that are not served."""
    for op in range(256):
        if op not in SERVED:
            yield Case(bytes([op, 0x21, 0xE5]), flags=rnd.randrange(16), pc=rnd.choice([0x1000, 0x800, 0x10FF]))
    regs = {1: 0x1040, 2: 0x1050}
    for low in range(32):
        for op in (rnd.choice(sorted(TWO)), 0x58, 0x5A):
            high = rnd.choice([0x80, 0xA0, 0xC0, 0xE0] if op in TWO else [0, 0x20, 0x40, 0x60, 0x80])
            yield Case(bytes([op, high | low]) + bytes.fromhex("61036202"), regs, rnd.randrange(16))


LONG = ((0, 0), (0x800, 0x100), (0x1000, 0x100), (0x1800, 0x40), (0x2000, 0x300))
AT = ADDRESS_FORMS[-1]


def string_lengths(rnd):
    """Equal and unequal lengths, short ones and those up to 128, and a stop character at each place."""
    for op in (0x58, 0x5A):
        size = 1 if op == 0x58 else 2
        for sub in sorted(STRINGS):
            for first in (0, 1, 2, 5):
                for second in (0, 1, 3, 5):
                    modes = rnd.choice(MOVED + [AT]), rnd.choice(MOVED + [AT])
                    yield string_case(rnd, op, sub, modes, (first, second), (0x2010, 0, 0x2040, 0))
            for lengths in ((127, 127), (128, 128), (128, 3), (2, 128), (0, 128), (128, 0), (127, 128), (128, 127)):
                yield string_case(rnd, op, sub, (AT, AT), lengths, (0x800, 0, 0x2100, 0), parts=LONG, special=0xFFFF)
        for stop in (0, 1, 2, 126, 127, 128):
            special = sum((0x100 + stop * size + i & 255 ^ 0x5A) << 8 * i for i in range(size))
            lengths = (128, rnd.choice([127, 128]))
            yield string_case(rnd, op, 0x0C, (AT, AT), lengths, (0x2000, 0, 0x2100, 0), parts=LONG, special=special)
        chars = bytes(range(0x30, 0x40))
        for stop in range(8):
            special = int.from_bytes(chars[stop * size:(stop + 1) * size], "little") | rnd.choice([0, 0xABCD0000])
            for lengths in ((6, 6), (8, 4), (4, 8), (7, 6)):
                places = (0x2010, 0, 0x2040, 0)
                yield string_case(rnd, op, 0x0C, (AT, AT), lengths, places, special=special, chars=chars)
        # half a stop character is none, nor one that lies across two
        for special in (0x3130, 0x3231, 0x30, 0x3100, 0x3030, 0xFFFF3130, 0x3332):
            yield string_case(rnd, op, 0x0C, (AT, AT), (4, 4), (0x2010, 0, 0x2040, 0), special=special, chars=chars)


def string_overlaps(rnd):
    """Strings that overlap: what was copied is fetched again where the destination lies above the source."""
    for op in (0x58, 0x5A):
        size = 1 if op == 0x58 else 2
        for sub in sorted(STRINGS):
            for distance in (-5, -3, -2, -1, 0, 1, 2, 3, 4, 5, 7):
                chars = bytes(rnd.randrange(0x30, 0x34) for _ in range(16))
                places = (0x2040, 0, 0x2040 + distance, 0)
                for lengths in ((6, 6), (3, 7)):
                    # a character of the source, or one that the copy itself brings about
                    special = int.from_bytes(rnd.choice([chars[4:6], chars[0:2], chars[1:3], b"00"]), "little")
                    yield string_case(rnd, op, sub, (AT, AT), lengths, places, special=special, chars=chars)
        for distance in (1, 3, 127):
            places = (0x2000, 0, 0x2000 + distance, 0)
            yield string_case(rnd, op, 0x08, (AT, AT), (128, 128), places, parts=LONG)
    # the source is the instruction itself, or what lies before and in it
    for distance in (0, 1, 2, -1, -2):
        yield Case("580861046206", {1: 0x1000 - distance, 2: 0x1008}, pc=0x1000)
        yield Case("5A0A61026204", {1: 0x1020 - distance, 2: 0x1024 - distance, 26: 0x1234}, pc=0x1020)


def string_registers(rnd):
    """R26, R27 and R28 as bases and indexes, moved by the operands, and as lengths, in any combination."""
    ways = ((0, "{6}"), (1, "{8}"), (1, "{A}"), (0, "{0}02"), (0, "{2}0010"), (0, "{8}20"), (1, "{0}2003"),
            (1, "{C}65"))
    memory = {i: little(0x1040 + 2 * i, 4) for i in range(0x20, 0x60, 4)}
    for _ in range(360):
        code = [rnd.choice([0x58, 0x5A]), rnd.choice(sorted(STRINGS))]
        tail = b""
        for bit in (6, 5):
            m, mode = rnd.choice(ways)
            code[1] |= m << bit
            tail += way(mode, rnd.choice([26, 27, 28, 28, 27, 3]))
            tail += bytes([rnd.choice([0x80 | rnd.choice([26, 27, 28, 3]), rnd.randrange(6)])])
        regs = {n: rnd.choice([0, 1, 2, 3, 4, 5, 8]) for n in (26, 27, 28, 3)}
        regs[5] = 0x1080
        yield Case(bytes(code) + tail, regs, rnd.randrange(16), memory, pc=0x1000, parts=WRAP)


def moved_special(rnd):
    """R26 moved by an operand: the fill or stop character is what it holds afterwards."""
    tails = ("9A018103", "BA018103", "81039A03", "8103BA03", "9A039A05", "BA03BA05", "9A038105", "8105BA05")
    # every value of R26 in reach is a character of the strings
    characters = bytes(range(0x1C, 0x27))
    for op in (0x58, 0x5A):
        for sub in (0x0A, 0x0C):
            for tail in tails:
                for page, parts in ((0, WRAP), (0x2000, PLAIN)):
                    code = bytes([op, sub | 0x60]) + bytes.fromhex(tail)
                    memory = {page + 0x1C: characters, page + 0x40: characters}
                    regs = {1: page + 0x40, 26: page + 0x20}
                    yield Case(code, regs, rnd.randrange(16), memory, parts=parts)


# RAM whose last bytes would lie past FFFFFFFFh, and are never reached; ROM from 0 on below RAM at the other end
PAST_END = ((0, 0), (0, 0), (0x1000, 0x100), (0x1100, 0), (0xFFFFFF80, 0x100))
ROM_LOW = ((0, 0), (0, 0x40), (0x1000, 0x100), (0x1100, 0), (0xFFFFFF00, 0x100))


def wrapped_code(rnd):
    """Instructions that lie across FFFFFFFFh and 0, by each mode at random."""
    places = (0x30, 0x48, 0xFFFFFF98, 0xFFFFFFA8)
    for op in sorted(TWO):
        for _ in range(2):
            pc = MASK - rnd.randrange(6)
            yield two_case(rnd, op, (rnd.choice(MODES), rnd.choice(MODES)), places, pc, WRAP)
    for op in sorted(ONE):
        for _ in range(2):
            yield one_case(rnd, op, rnd.choice(MODES), places, MASK - rnd.randrange(4), WRAP)
    for op in (0x58, 0x5A):
        for sub in sorted(STRINGS):
            for back in range(22):
                modes = (DOUBLE[2], DOUBLE[2]) if back % 2 else (rnd.choice(POINTED), rnd.choice(POINTED))
                yield string_case(rnd, op, sub, modes, (2, 3), places, MASK - back, WRAP)
    for pc in (0, 1, MASK, MASK - 1, MASK - 2):
        for code in ("6AFE", "6A7F", "6A80", "7A0080", "7AFF7F", "48FEFF", "480200", "CD", "CA"):
            parts = rnd.choice([WRAP, WRAP, PAST_END, ROM_LOW])
            yield Case(code, {31: 0x1080}, 0, {0x1080: "FEFFFFFF"}, pc, parts, 2)


def wrapped_operands(rnd):
    """Values, pointers and pushed words that lie across FFFFFFFFh and 0; there RAM, ROM or nothing goes on."""
    usual = (0x1060, 0x1080, 0x10A0, 0x10C0)
    far = [mode for mode in MODES if not is_close(mode)]
    for op in (0x1B, 0x2D, 0x3F, 0x82, 0x84, 0xBA, 0xAD, 0x1C, 0x44, 0x8D):
        sizes = (TWO[op][1], 4, TWO[op][3], 4)
        for which, size in enumerate(sizes):
            for j in range(1, size):
                parts = rnd.choice([WRAP, WRAP, PAST_END, ROM_LOW])
                modes = [rnd.choice(far), rnd.choice(far)]
                modes[which // 2] = rnd.choice(FAR_POINTED if which % 2 else ADDRESS_FORMS[-4:] + MOVED)
                places = list(usual)
                places[which] = MASK + 1 - j
                yield two_case(rnd, op, modes, places, 0x1020, parts)
    for op in (0xEE, 0xE6, 0xE8, 0xD6, 0xDC, 0xF2):
        for which in range(3):
            for j in range(1, 4):
                parts = rnd.choice([WRAP, WRAP, PAST_END, ROM_LOW])
                places = list(usual)
                places[which] = MASK + 1 - j
                yield one_case(rnd, op, rnd.choice(FAR_POINTED), places, 0x1020, parts)
    for stack in (0, 1, 2, 3, 4, 5, MASK, MASK - 1, MASK - 2, MASK - 3, MASK - 4):
        for code in ("EF61", "E762", "E860", "480010", "CA"):
            for parts in (WRAP, rnd.choice([PAST_END, ROM_LOW])):
                yield Case(code, {1: 0x11223344, 31: stack}, parts=parts)
    # [Rn+], [-Rn] and indexes past the ends
    for size, op in ((1, "09"), (2, "1B"), (4, "2D"), (8, "3F")):
        for at in (0, 1, size - 1, size, MASK, MASK + 1 - size, MASK - size):
            yield Case(op + "E08182", {1: at, 2: at + 0x20}, parts=WRAP)
            yield Case(op + "E0A1A1", {1: at}, parts=WRAP)
            yield Case(op + "E0C361C361", {1: at, 3: 0xE0000001}, parts=WRAP)


def wrapped_strings(rnd):
    for op in (0x58, 0x5A):
        for sub in sorted(STRINGS):
            for back in (1, 2, 3, 4, 5):
                for parts in (WRAP, PAST_END, ROM_LOW):
                    modes = rnd.choice(MOVED + [AT]), rnd.choice(MOVED + [AT])
                    at = MASK + 1 - back
                    first, second = rnd.choice([(at, 0x1080), (0x1080, at), (at - 3, at), (at, at - 1)])
                    places = (first, 0, second, 0)
                    yield string_case(rnd, op, sub, modes, (3, rnd.choice([3, 5])), places, 0x1020, parts)


# programs: code from 1000h on (or from 0800h, where there is none), steps, registers, bytes of memory
PROGRAMS = (
    # R2 = 5 + 4 + 3 + 2 + 1, by DEC and BNZ
    ("2D21E5 844162 D561 65FB CD", 17, {2: 0}, {}),
    # stores an opcode where an unserved one lies, and executes it: a byte on the writes sheet gives no reads line
    ("0980F4CDF30A100000 CD 99 CD", 4, {}, {}),
    # overwrites itself, goes back and executes what it has stored
    ("1B0162 6AFD", 6, {1: 0xCDCD, 2: 0x1000}, {}),
    # refused steps: a second try adds no line
    ("99", 3, {}, {}), ("2D01E5", 3, {}, {}), ("2D2161", 3, {1: 0x5000}, {}), ("58086183628A", 3, {3: 129}, {}),
    ("2D806263", 3, {2: 0x1040, 3: 0x800}, {}), ("580861E0", 2, {}, {}), ("2DA0610163", 2, {1: 0x10FE}, {}),
    ("580861046204", 2, {1: 0x1040, 2: 0x7FE}, {}), ("84806263", 2, {2: 0x1040, 3: 0x10FE}, {}),
    # loads an address twice, then stores there and loads it again
    ("2D2362 2D2562 2D0462 2D2662", 4, {2: 0x2010, 4: 0x12345678}, {}),
    ("2D0462 2D2562 2D2662", 3, {2: 0x2010, 4: 0x12345678}, {}),
    # part of a word is listed, part of it is stored, the rest is new
    ("092362 09C06472 2D2562", 3, {2: 0x2010, 4: 0x12345678, 18: 0x2011}, {}),
    # loads bytes of its own code, and of code that is still to come
    ("2D21F000 2D22F004 CDCDCDCD", 6, {}, {}),
    # subroutines within subroutines
    ("480600 CD 6A00 480600 CD CA CDCA", 9, {31: 0x2040}, {}),
    ("E8F208000000 CDCD CA", 6, {31: 0x2040}, {}),
    ("E862 CD", 4, {2: 0x2060, 31: 0x2040}, {0x2060: "CDCA"}),
    # goes to where nothing lies
    ("D662", 3, {2: 0x5000}, {}), ("6AF0", 3, {}, {}), ("CA", 3, {31: 0x2000}, {0x2000: "00500000"}),
    # the stack: three pushes, three pops
    ("EF61 EF62 EEF478563412 E763 E764 E765", 6, {1: 0x11111111, 2: 0x22222222, 31: 0x2040}, {}),
    # a string copied twice, then further on
    ("580861046204 580861046204 586882048206", 3, {1: 0x2010, 2: 0x2020}, {}),
    # filled, copied back up to a stop character, copied over itself
    ("580A61026206 580C62066106 5A0863026302", 3, {1: 0x2010, 2: 0x2011, 3: 0x200F, 26: 0x4B}, {}),
    # sums and differences of doublewords, with the carry handed on
    ("844162 944364", 2, {1: MASK, 2: 2, 3: 0x7FFFFFFF, 4: 1}, {}),
    ("AC4162 9C4364", 2, {1: 3, 2: 2, 3: 0x80000000, 4: 1}, {}),
    # firmware in ROM writes into RAM and goes on there
    ("", 4, {}, {0x800: "2D01F300200000 D6F300200000"}),
)


def programs():
    for code, steps, regs, memory in PROGRAMS:
        yield Case(code, {1: 0xCD, **regs}, 0, memory, 0x1000 if code else 0x800, steps=steps)


SHORT = ("CD", "DD62", "D562", "D963", "D364", "8422E3", "A823E7", "8022E9", "BC4263", "B84364", "F563", "3C4263",
         "AD22E1", "A922F4FF", "8923E3", "B44362", "EF62", "E763", "EF7F", "2D6581", "2D45A1", "904362", "9C4263")


def branchy(rnd):
    """Short programs full of branches; where they lead is not watched over."""
    for condition in [c for c in range(16) if c != 11] * 5:
        starts, code = [], b""
        for _ in range(9):
            starts.append(len(code))
            code += bytes.fromhex(rnd.choice(SHORT))
            if rnd.randrange(2):
                target = rnd.choice(starts) - len(code) if rnd.randrange(2) else rnd.randrange(2, 9)
                which = rnd.choice([condition, condition, rnd.choice((0, 3, 5, 10, 12))])
                wide = rnd.randrange(3) == 0
                starts.append(len(code))
                code += bytes([which | (0x70 if wide else 0x60)]) + little(target, 2 if wide else 1)
        regs = {n: rnd.choice(edges(4, rnd)) for n in (2, 3, 4)}
        yield Case(code, {1: 0x2040, 31: 0x2080, **regs}, rnd.randrange(16), steps=10)


class Spots:
    """Places for operands and pointers, most of them new, some of them met before."""
    def __init__(self, rnd):
        self.rnd, self.far, self.close, self.met = rnd, 0x2000, 0x1060, []

    def place(self, mode):
        if is_close(mode):
            self.close = 0x1060 + (self.close - 0x1060 + 6) % 0x18
            return self.close
        if self.met and self.rnd.randrange(4) == 0:
            return self.rnd.choice(self.met)
        self.far += 8 + self.rnd.randrange(3)
        self.met.append(self.far)
        return self.far


def in_a_row(rnd):
    """Several instructions at random, one after the other; later ones may find what earlier ones have left."""
    for _ in range(120):
        setup, spots_, code = Setup(rnd, 0x1000), Spots(rnd), b""
        setup.regs[31] = 0x20F0
        for _ in range(5):
            setup.pc = 0x1000 + len(code)
            op = rnd.choice(sorted(TWO) * 2 + [op for op in sorted(ONE) if ONE[op][0] != "JMP"])
            sizes = TWO[op][1::2] if op in TWO else ONE[op][1:2]
            modes = [rnd.choice(MODES[:-2]) for _ in sizes]
            operands = [setup.operand(mode, size, spots_.place(mode), spots_.place(mode), rnd.choice(edges(size, rnd)))
                        for mode, size in zip(modes, sizes)]
            if op in TWO:
                code += two_code(rnd, op, modes, *operands)
            else:
                code += bytes([op | operands[0][0]]) + operands[0][1]
        setup.pc = 0x1000
        yield setup.case(code, steps=6)


def at_random(rnd):
    """Bytes at random behind a served opcode, with registers that lead into memory."""
    spots = [0x800, 0x820, 0x1000, 0x1040, 0x10F8, 0x1800, 0x183E, 0x2000, 0x2040, 0x2080, 0x20FC]
    for _ in range(100):
        op = rnd.choice(sorted(SERVED))
        code = bytes([op]) + bytes(rnd.randrange(256) for _ in range(21))
        if op in TWO and rnd.randrange(2):
            code = bytes([op, rnd.choice([0x80, 0xA0, 0xC0, 0xE0])]) + code[2:]
        regs = {n: rnd.choice(spots) + rnd.randrange(8) for n in range(32)}
        yield Case(code, regs, rnd.randrange(16), pc=rnd.choice([0x1000, 0x1060, 0x10F4, 0x2004, 0x808]))


def cases():
    rnd = random.Random(70616)
    yield from worked()
    for group in (numbers, flags_kept, modes_everywhere, same_register, stack_register, refused_two, refused_one,
                  refused_string, refused_bytes, refused_length, not_served, string_lengths, string_overlaps,
                  string_registers, moved_special, wrapped_code, wrapped_operands, wrapped_strings, branchy, in_a_row,
                  at_random):
        yield from group(rnd)
    yield from programs()


def main():
    with open(os.path.join(HERE, "stdin"), "w") as given_lines, open(os.path.join(HERE, "stdout"), "w") as wanted:
        for case in cases():
            given_lines.write(case.text() + "\n")
            wanted.writelines(line + "\n" for line in case.answers())


if __name__ == "__main__":
    main()
