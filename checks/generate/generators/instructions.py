"""The instructions of RFC 9669 that the sandbox accepts: the term of each one, and the fields that encode it."""
import collections
import struct

from .antt import integer

WIDTHS = {"W64": (7, 5), "W32": (4, 6)}  # the classes of their arithmetic and of their jumps (section 3.3)
OPERATIONS = {
    "Add": 0x00, "Sub": 0x10, "Mul": 0x20, "Div": 0x30, "SignedDiv": 0x30, "Or": 0x40, "And": 0x50, "ShiftLeft": 0x60,
    "ShiftRight": 0x70, "Mod": 0x90, "SignedMod": 0x90, "Xor": 0xA0, "Move": 0xB0, "ArithmeticShiftRight": 0xC0,
}
CONDITIONS = {
    "Equal": 0x10, "Above": 0x20, "AtLeast": 0x30, "AnyBit": 0x40, "NotEqual": 0x50, "SignedAbove": 0x60, "SignedAtLeast": 0x70,
    "Below": 0xA0, "AtMost": 0xB0, "SignedBelow": 0xC0, "SignedAtMost": 0xD0,
}
SIZES = {"Word": 0x00, "Half": 0x08, "Byte": 0x10, "Double": 0x18}
NARROW = {"Byte": 1, "Half": 2, "Word": 4}
SWAP_SIZES = {"Half": 16, "Word": 32, "Double": 64}
ORDERS = {"Little": 0xD4, "Big": 0xDC, "Reversed": 0xD7}

# The fields that are read as signed numbers, with their bits.
SIGNED = {"offset": 16, "imm": 32}

# A part of an instruction: its variable in a pattern, the field that holds it, and the constructor that wraps it, or None.
Part = collections.namedtuple("Part", "variable field wrap")
DST, SRC = Part("dst", "dst", None), Part("src", "src", None)
BASE, BASE_OF_STORE = Part("base", "src", None), Part("base", "dst", None)
DISTANCE, OFFSET = Part("distance", "offset", None), Part("offset", "offset", None)
OPERANDS = {0: Part("n", "imm", "Immediate"), 8: Part("src", "src", "Register")}  # by the source bit


class Form:
    """A kind of instruction: its constructor with the arguments that choose the kind, its opcode, and its parts.

    `chosen_by` is the field, with its value, that distinguishes it from other forms of the same opcode, or None. `IsInsn` is a
    product, and `first` is the place of the first part in it. `exists` is false if no well-formed instruction has this form.
    """

    def __init__(self, head, opcode, parts, chosen_by=None, first=0, exists=True):
        self.head, self.opcode, self.parts = head, opcode, parts
        self.chosen_by, self.first, self.exists = chosen_by, first, exists
        self.kind = head.split()[0]

    def term(self, terms):
        """The instruction with a term for each part."""
        wrapped = [f"({part.wrap} {term})" if part.wrap else term for part, term in zip(self.parts, terms)]
        return " ".join([f"i.{self.head}", *map(str, wrapped)])

    def pattern(self):
        """The instruction with a variable for each part, as an argument."""
        text = self.term([part.variable for part in self.parts])
        return f"({text})" if " " in text else text

    def known(self, k):
        """The proof that the part at place `k` is in range: a component of the argument `p`, which proves `IsInsn`."""
        return "p" if self.first + len(self.parts) == 1 else f"p.{self.first + k}"


def arithmetic(width):
    """The operations, by an immediate number and by a register."""
    low = WIDTHS[width][0]
    for name, code in OPERATIONS.items():
        chosen_by = None
        if list(OPERATIONS.values()).count(code) == 2:
            chosen_by = ("offset", int(name.startswith("Signed")))
        for bit, operand in OPERANDS.items():
            # MOV from a register has the offset 0. With another offset it extends the sign.
            by = ("offset", 0) if name == "Move" and bit else chosen_by
            yield Form(f"Arithmetic {width} op.{name}", code + bit + low, [DST, operand], by)


def negate(width):
    return Form(f"Negate {width}", 0x80 + WIDTHS[width][0], [DST])


def extensions(width):
    for name, size in NARROW.items():
        exists = (width, name) != ("W32", "Word")
        yield Form(f"SignExtend {width} narrow.{name}", 0xB8 + WIDTHS[width][0], [DST, SRC], ("offset", 8 * size), 1, exists)


def branches(width):
    for name, code in CONDITIONS.items():
        for bit, operand in OPERANDS.items():
            yield Form(f"Branch {width} c.{name}", code + bit + WIDTHS[width][1], [DST, operand, DISTANCE])


def swaps():
    for order, opcode in ORDERS.items():
        for name, size in SWAP_SIZES.items():
            yield Form(f"Swap order.{order} swap.{name}", opcode, [DST], ("imm", size))


def load(name):
    return Form(f"Load size.{name}", 0x61 + SIZES[name], [DST, BASE, OFFSET])


def stores(name):
    for bit, operand in enumerate(OPERANDS.values()):
        yield Form(f"Store size.{name}", 0x62 + bit + SIZES[name], [BASE_OF_STORE, OFFSET, operand])


def load_signed(name):
    return Form(f"LoadSigned narrow.{name}", 0x81 + SIZES[name], [DST, BASE, OFFSET])


LOAD_IMMEDIATE = Form("LoadImmediate", 0x18, [DST, Part("number", "wide", None)])
JUMP = Form("Jump", 0x05, [DISTANCE])
LONG_JUMP = Form("LongJump", 0x06, [Part("distance", "imm", None)])
CALL = Form("Call", 0x85, [Part("helper", "imm", None)])
EXIT = Form("Exit", 0x95, [])


def forms():
    """All forms. The opcodes of a class are in ascending order."""
    out = []
    for width in WIDTHS:
        out += [*arithmetic(width), negate(width), *extensions(width)]
    out += [*swaps(), LOAD_IMMEDIATE, JUMP, LONG_JUMP]
    for width in WIDTHS:
        out += branches(width)
    for name in SIZES:
        out += [load(name), *stores(name)]
        if name in NARROW:
            out.append(load_signed(name))
    return out + [CALL, EXIT]


def by_opcode(listed):
    """The forms of each opcode, in the order in which the opcodes first appear."""
    groups = {}
    for form in listed:
        groups.setdefault(form.opcode, []).append(form)
    return groups


GROUPS = by_opcode(forms())


def units(program):
    """The units of a program, each as its opcode, dst, src, offset and imm."""
    for at in range(0, len(program), 8):
        opcode, registers, offset, imm = struct.unpack_from("<BBhi", program, at)
        yield opcode, registers & 15, registers >> 4, offset, imm


def decoded(program):
    """Each instruction of a program: its form and its fields, in which `wide` is the number of two units."""
    rest, out = list(units(program)), []
    while rest:
        opcode, dst, src, offset, imm = rest.pop(0)
        fields = {"dst": dst, "src": src, "offset": offset, "imm": imm}
        if opcode == LOAD_IMMEDIATE.opcode:
            fields["wide"] = imm % 2**32 + (rest.pop(0)[4] % 2**32 << 32)
        group = GROUPS[opcode]
        form = next(form for form in group if not form.chosen_by or fields[form.chosen_by[0]] == form.chosen_by[1])
        out.append((form, fields))
    return out


def terms(program):
    """The instructions of a program as terms."""
    out = []
    for form, fields in decoded(program):
        values = []
        for part in form.parts:
            value = fields[part.field]
            values.append(f"({integer(value)})" if part.field in SIGNED else value)
        out.append(form.term(values))
    return out
