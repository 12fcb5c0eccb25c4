"""The programs that checks/compare/run puts to the engines."""
import struct

import bpf

UNITS = 4096
LEAST = bpf.assemble("mov r0, 0; exit")


def classic(*lines):
    """A classic filter: operation, jump if true, jump if false, constant."""
    return b"".join(struct.pack("<HBBI", *line) for line in lines)


# ---- eight shapes, as crates/bench/src/shape.rt has them, each with its classic equivalent where there is one

OPERATIONS = ["add r0, r2", "mul r0, 5", "xor r0, 77", "lsh r0, 3"]
OPERATIONS += ["sub.w r0, 1", "div r0, 3", "or r0, r2", "arsh r0, 1"]
CLASSIC_OPERATIONS = [(0x0C, 0), (0x24, 5), (0xA4, 77), (0x64, 3), (0x14, 1), (0x34, 3), (0x4C, 0), (0x74, 1)]
PLACES = [-512, -8, -16, -264]
RETURN = (0x16, 0, 0, 0)


def shape(first, line):
    """A program of 4,096 units: these lines, then that of each unit, and the exit."""
    return bpf.assemble("\n".join([*first, *(line(unit) for unit in range(len(first), UNITS - 1)), "exit"]))


def classic_shape(first, line):
    lines = (line(unit) for unit in range(len(first), UNITS - 1))
    return classic(*first, *((code, 0, 0, k) for code, k in lines), RETURN)


def store(unit):
    return f"stxd [r10{PLACES[unit % 4]}], r0"


def jump(unit):
    return "jeq r2, 5, +2000" if unit <= 2094 else "jeq r2, 5, +0"


def shapes():
    stores = ["mov r0, 7"]
    filled = [*stores, *(store(unit) for unit in range(1, 5))]
    tested = ["ldd r2, [r1+32]", "mov r0, 0"]
    load = ["ldd r0, [r10-512]", "ldd r2, [r10-8]", "ldd r3, [r10-16]", "ldd r4, [r10-264]"]
    seen = ["ldw r0, [r1+0]", "ldw r2, [r1+8]", "ldw r3, [r1+16]", "ldw r4, [r1+24]"]
    word = (0x20, 0, 0, 32)
    return [
        ("moves", shape([], lambda unit: "mov r0, 7"), classic_shape([], lambda unit: (0x00, 7))),
        ("additions", shape(["mov r0, 0"], lambda unit: "add r0, 1"),
         classic_shape([(0x00, 0, 0, 0)], lambda unit: (0x04, 1))),
        ("mixed arithmetic", shape(["mov r0, 1", "mov r2, 3"], lambda unit: OPERATIONS[unit % 8]),
         classic_shape([(0x00, 0, 0, 1), (0x01, 0, 0, 3)], lambda unit: CLASSIC_OPERATIONS[unit % 8])),
        ("stores to the stack", shape(stores, store), classic_shape([(0x00, 0, 0, 7)], lambda unit: (0x02, unit % 4))),
        ("loads from the stack", shape(filled, lambda unit: load[unit % 4]),
         classic_shape([(0x00, 0, 0, 7), *((0x02, 0, 0, k) for k in range(4))], lambda unit: (0x60, unit % 4))),
        ("loads from the context", shape([], lambda unit: seen[unit % 4]),
         classic_shape([], lambda unit: (0x20, 8 * (unit % 4)))),
        ("conditional jumps to the next unit", shape(tested, lambda unit: "jeq r2, 5, +0"),
         classic_shape([word], lambda unit: (0x15, 5))),
        ("far conditional jumps", shape(tested, jump), b""),
    ]


# ---- branches in a row


def counted(count):
    """Each branch adds another power of two or not; the sum is the place of a store."""
    lines = ["ldd r2, [r1+32]", "mov r0, 0"]
    for place in range(count):
        lines += [f"jset r2, {1 << place}, +1", f"add r0, {1 << place}"]
    lines += ["and r0, 255", "mov r3, r10", "add r3, -256", "add r3, r0", "stb [r3+0], 1", "mov r0, 0", "exit"]
    return bpf.assemble("\n".join(lines)), b""


def kept(count):
    """Each branch writes another number to a cell or not; nothing depends on it but r0."""
    lines = ["ldd r2, [r1+32]", *(f"std [r10-{8 * place}], 0" for place in range(1, 5)), "mov r0, 0"]
    for place in range(count):
        lines += [f"jset r2, {1 << place}, +1", f"std [r10-{8 * (place % 4 + 1)}], {place}"]
    return bpf.assemble("\n".join([*lines, "ldd r0, [r10-8]", "exit"])), classic_kept(count)


def classic_kept(count):
    lines = [(0x01, 0, 0, 0), *((0x03, 0, 0, cell) for cell in range(4)), (0x20, 0, 0, 32)]
    for place in range(count):
        lines += [(0x45, 2, 0, 1 << place), (0x01, 0, 0, place), (0x03, 0, 0, place % 4)]
    return classic(*lines, (0x60, 0, 0, 0), RETURN)


FAMILIES = [("a sum that is the place of a store", counted), ("a cell of the stack that is written or not", kept)]


# ---- random programs

IMMEDIATES = [0, 1, 2, 3, 7, 8, 15, 16, 63, 64, 255, 256, 511, 512, 4095, 4096, -1, -2, -8, -512, 2**31 - 1, -(2**31)]
WIDE = [0, 1, 2**31, 2**32 - 1, 2**32, 2**63 - 1, 2**63, 2**64 - 1, 2**64 - 8]
USUAL = ["add", "sub", "mul", "and", "or", "xor", "lsh", "rsh", "arsh", "mov", "div", "mod"]
FURTHER = ["sdiv", "smod", "movsx8", "movsx16", "movsx32", "swap16", "swap64"]


class Random:
    """A program in the making: what registers and cells have been set so far, as far as it is worth to know.

    A careful one reads what it has set and bounds what it adds to a pointer, mostly; of the others most are refused."""

    def __init__(self, rng):
        self.rng, self.lines, self.numbers, self.cells = rng, [], [], []
        self.is_careful, self.has_further = rng.random() < 0.75, rng.random() < 0.15
        self.skipped = 0

    def put(self, line):
        self.lines.append(line)
        self.skipped = max(self.skipped - 1, 0)

    def number(self):
        """A register: nearly always one that holds a number."""
        if self.numbers and self.rng.random() > (0.001 if self.is_careful else 0.02):
            return self.rng.choice(self.numbers)
        return self.rng.randrange(11)

    def set(self, register):
        """The last line sets it, unless a jump may have led past that line."""
        if register not in self.numbers and register < 10 and not (self.is_careful and self.skipped):
            self.numbers.append(register)

    def begin(self):
        for register in self.rng.sample([0, 2, 3, 4, 5, 6, 7, 8, 9], self.rng.randint(2, 4)):
            kind, size = self.rng.random(), self.rng.choice("bhwd")
            if kind < 0.6:
                self.put(f"ld{size} r{register}, [r1+{self.rng.choice((0, 8, 32, 33, 40, 4088))}]")
            elif kind < 0.85:
                self.put(f"mov r{register}, {self.rng.choice(IMMEDIATES)}")
            else:
                self.put(f"lddw r{register}, {self.rng.choice(WIDE)}")
            self.set(register)

    def operand(self):
        return f"r{self.number()}" if self.rng.random() < 0.45 else str(self.rng.choice(IMMEDIATES))

    def compute(self):
        register, rng = self.number(), self.rng
        if rng.random() < 0.08:
            self.put(f"neg{rng.choice(('', '.w'))} r{register}")
        elif self.has_further and rng.random() < 0.3:
            name = rng.choice(FURTHER)
            is_move = name.startswith("movsx")
            second = "" if name.startswith("swap") else f", r{self.number()}" if is_move else f", {self.operand()}"
            self.put(f"{name} r{register}{second}")
        else:
            self.put(f"{rng.choice(USUAL)}{rng.choice(('', '', '', '.w'))} r{register}, {self.operand()}")

    def bound(self, register):
        name = self.rng.choice(("and", "and", "rsh", "mod"))
        self.put(f"{name} r{register}, {self.rng.choice((1, 7, 8, 15, 63, 255, 511, 60))}")

    def jump(self):
        code = self.rng.choice([*bpf.JUMPS, "jgt", "jlt", "jge", "jle", "jsgt", "jslt", "jsge", "jsle"])
        width = ".w" if self.has_further and self.rng.random() < 0.4 else ""
        far = self.rng.choice((0, 1, 1, 2, 3))
        self.put(f"{code}{width} r{self.number()}, {self.operand()}, +{far}")
        self.skipped = max(self.skipped, far)

    def cell(self):
        rng, is_load = self.rng, self.rng.random() < 0.5
        size, place = rng.choice("bhwdd"), rng.choice((-8, -16, -12, -24, -512, -4, -1, -511, -7))
        if self.cells and (rng.random() < 0.6 or is_load and self.is_careful):
            size, place = rng.choice(self.cells)
        elif is_load and self.is_careful:
            is_load = False
        if is_load:
            register = rng.choice((0, 2, 3, 4, 5, 6, 7))
            self.put(f"ld{size} r{register}, [r10{place}]")
            self.set(register)
            return
        if not (self.is_careful and self.skipped):
            self.cells.append((size, place))
        if rng.random() < 0.6:
            self.put(f"stx{size} [r10{place}], r{self.number()}")
        else:
            self.put(f"st{size} [r10{place}], {rng.choice(IMMEDIATES)}")

    def address(self):
        """An access at a place that a number chooses."""
        rng = self.rng
        if self.is_careful and self.skipped:
            return
        base, by = rng.choice((1, 10, 10)), self.number()
        pointer = rng.choice([register for register in (6, 7, 8, 9) if register != by])
        if self.is_careful or rng.random() < 0.6:
            self.bound(by if self.is_careful else self.number())
        self.put(f"mov r{pointer}, r{base}")
        if pointer in self.numbers:
            self.numbers.remove(pointer)
        if rng.random() < 0.6 or self.is_careful and base == 10:
            places = (-512, -256, -64, -16, -8) if base == 10 else (8, 64, 3585, 4000)
            self.put(f"add r{pointer}, {rng.choice(places)}")
        self.put(f"{'add' if self.is_careful else rng.choice(('add', 'add', 'sub'))} r{pointer}, r{by}")
        size, place = rng.choice("bhwd"), rng.choice((0, 0, 0, 0, -1) if self.is_careful else (0, 0, -8, -1, 8))
        if base == 10:
            is_constant = rng.random() < 0.7
            value = "1" if is_constant else f"r{self.number()}"
            self.put(f"st{'' if is_constant else 'x'}{size} [r{pointer}{place:+}], {value}")
        else:
            register = rng.choice((0, 2, 3))
            self.put(f"ld{size} r{register}, [r{pointer}{place:+}]")
            self.set(register)

    def end(self):
        if 0 not in self.numbers or self.rng.random() < 0.5:
            self.put(f"mov r0, r{self.number()}" if self.numbers else "mov r0, 0")
        # (a jump leads to the exit at most: as many moves as it may pass)
        return "\n".join([*self.lines, "mov r9, 0", "mov r9, 0", "mov r9, 0", "exit"])


def random_program(rng):
    program = Random(rng)
    program.begin()
    steps = [program.compute] * 5 + [lambda: program.bound(program.number())] + [program.jump] * 3
    steps += [program.cell] * 3 + [program.address] * 2
    for _ in range(rng.randint(2, 12)):
        rng.choice(steps)()
    code = bytearray(bpf.assemble(program.end()))
    if rng.random() < 0.1:
        code[rng.randrange(len(code))] ^= 1 << rng.randrange(8)
    return bytes(code)


# ---- changing programs


def starts(program):
    """The place of each instruction, in units."""
    found, at = [], 0
    while at < len(program) // 8:
        found.append(at)
        at += 2 if program[8 * at] == 0x18 else 1
    return found


def computing(program):
    """The opcodes that neither load, store nor move."""
    moves = {0x18, 0x95, 0xB4, 0xB7, 0xBC, 0xBF}
    return frozenset(program[8 * at] for at in starts(program) if program[8 * at] & 7 > 3) - moves


def is_jump(opcode):
    return opcode & 7 in (5, 6) and opcode not in (0x85, 0x95, 0x06)


def without_one(program):
    """The programs with one instruction less, whose jumps lead where they led."""
    places = starts(program)
    for number, at in enumerate(places[:-1]):
        size = (places[number + 1] if number + 1 < len(places) else len(program) // 8) - at
        code = bytearray()
        for place in places:
            if place == at:
                continue
            unit = bytearray(program[8 * place:8 * place + (16 if program[8 * place] == 0x18 else 8)])
            if is_jump(unit[0]):
                offset = struct.unpack_from("<h", unit, 2)[0]
                if place < at < place + 1 + offset:
                    struct.pack_into("<h", unit, 2, offset - size)
            code += unit
        yield bytes(code)


def high_half(program):
    """The program that gives the high half of its r0."""
    last = len(program) // 8 - 1
    code = bytearray(program)
    for place in starts(program):
        if code[8 * place] == 0x95 and place < last:
            code[8 * place:8 * place + 8] = bpf.unit(0x05, offset=last - place - 1)
    return bytes(code[:8 * last]) + bpf.assemble("rsh r0, 32; exit")


# ---- programs that are put to all, one by one

# What a verifier may forget: each reads what nothing has written, or leaves its memory, in some context.
PROBES = [
    "mov r0, r2; exit",
    "ldd r0, [r10-8]; exit",
    "stb [r10-8], 1; ldh r0, [r10-8]; exit",
    "ldw r2, [r1+0]; mov r0, 0; jeq r2, 0, +1; std [r10-8], 1; ldd r0, [r10-8]; exit",
    "ldw r2, [r1+0]; jeq r2, 0, +1; mov r0, 0; exit",
    "std [r10-520], 1; mov r0, 0; exit",
    "std [r10-7], 1; mov r0, 0; exit",
    "ldd r0, [r1+4089]; exit",
    "ldb r0, [r1-1]; exit",
    "ldb r2, [r1+0]; mov r3, r10; add r3, -200; add r3, r2; stb [r3+0], 1; mov r0, 0; exit",
    "ldd r2, [r1+0]; mov r3, r10; mov r0, 0; jgt r2, 8, +3; sub r3, r2; stb [r3+0], 1; mov r0, 1; exit",
    "ldd r2, [r1+0]; mov r0, 0; jsgt r2, 8, +3; mov r3, r1; add r3, r2; ldb r0, [r3+0]; exit",
    "ldd r2, [r1+0]; mov r0, 0; jslt r2, 0, +4; jsgt r2, 4095, +3; mul r2, 2; mov r3, r1; add r3, r2; ldb r0, [r3+0]; "
    "exit",
    "ldb r2, [r1+0]; neg r2; mov r3, r1; add r3, r2; ldb r0, [r3+0]; exit",
    "ldb r2, [r1+0]; neg r2; mov r3, r1; add r3, 255; add r3, r2; ldd r0, [r3+0]; mov r0, 0; ldb r2, [r1+0]; "
    "sub r2, 128; mov r3, r1; add r3, r2; ldb r0, [r3+0]; exit",
    "ldw r2, [r1+0]; mul r2, r2; and r2, 8191; mov r3, r1; add r3, r2; ldb r0, [r3+0]; exit",
    "ldb r2, [r1+0]; ldb r4, [r1+1]; mul r2, r4; mov r3, r1; add r3, r2; ldb r0, [r3+0]; exit",
    "ldd r2, [r1+0]; mov r4, 4095; mov r0, 0; jgt r2, r4, +0; mov r3, r1; add r3, r2; ldb r0, [r3+0]; exit",
    "ldd r2, [r1+0]; ldd r4, [r1+8]; mov r0, 0; jgt r4, 4095, +4; jge r2, r4, +3; mov r3, r1; add r3, r4; "
    "ldb r0, [r3+1]; exit",
    "ldd r2, [r1+0]; mov r0, 0; jeq r2, 5, +0; mov r3, r1; add r3, r2; ldb r0, [r3+0]; exit",
    "ldd r2, [r1+0]; mod r2, 4097; mov r3, r1; add r3, r2; ldb r0, [r3+0]; exit",
    "ldd r2, [r1+0]; arsh r2, 60; mov r3, r1; add r3, r2; ldb r0, [r3+0]; exit",
    "ldw r2, [r1+0]; lsh.w r2, 1; rsh.w r2, 19; mov r3, r1; add r3, r2; ldb r0, [r3+0]; exit",
    "ldd r2, [r1+0]; rsh r2, 52; or r2, 4096; mov r3, r1; add r3, r2; ldb r0, [r3+0]; exit",
    "ldd r2, [r1+0]; rsh r2, 52; xor r2, -1; mov r3, r1; add r3, r2; ldb r0, [r3+0]; exit",
    "stxd [r10-8], r1; stb [r10-8], 0; ldd r2, [r10-8]; ldb r0, [r2+0]; exit",
    "ldd r2, [r1+0]; and r2, 8; mov r3, r10; add r3, -16; add r3, r2; std [r3+0], 1; ldd r0, [r10-8]; exit",
    "mov r3, r10; add r3, r1; std [r3+0], 1; mov r0, 0; exit",
    "mov r3, r1; sub r3, r10; ldb r0, [r3+0]; exit",
    "mov.w r3, r1; ldb r0, [r3+0]; exit",
    "mov r3, r10; add.w r3, -8; std [r3+0], 1; mov r0, 0; exit",
    "mov r3, r1; neg r3; ldb r0, [r3+0]; exit",
    "mov r3, r1; and r3, -256; ldb r0, [r3+0]; exit",
    "mov r3, r1; lsh r3, 1; ldb r0, [r3+0]; exit",
    "ldd r2, [r1+0]; mov r3, r1; mul r3, r2; ldb r0, [r3+0]; exit",
    "mov r2, 8; sub r2, r10; std [r2+0], 1; mov r0, 0; exit",
    "movsx32 r3, r1; ldb r0, [r3+0]; exit",
    "mov r3, r1; swap64 r3; ldb r0, [r3+0]; exit",
    "stxd [r10-8], r1; ldw r2, [r10-8]; ldb r0, [r2+0]; exit",
    "stxd [r10-8], r1; stb [r10-8], 1; ldd r2, [r10-8]; ldb r0, [r2+0]; exit",
]


def probes(engines, asked, wrong, is_accepting, context):
    """The probes that an engine accepts though they are wrong by the model."""
    programs = [program for program in map(bpf.assemble, PROBES) if wrong(program)]
    answers = asked.verdicts([(engines, program, b"") for program in programs], context)
    both = zip(programs, answers)
    return [(name, program) for program, answer in both for name in engines if is_accepting(answer.get(name))]


# Classic filters that read scratch memory that nothing has written. (In Go it begins with zeros.)
CLASSIC = [
    ("ld M[15]; ret a", classic((0x60, 0, 0, 15), RETURN),
     "unit 0 reads word 15 of the scratch memory, which nothing has written"),
    ("jeq #0; st M[0]; ld M[0]; ret a", classic((0x15, 1, 0, 0), (0x02, 0, 0, 0), (0x60, 0, 0, 0), RETURN),
     "unit 2 reads word 0 of the scratch memory, which unit 1 writes on one way alone"),
]
