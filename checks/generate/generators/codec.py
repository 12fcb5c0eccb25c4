"""The cases of two proofs of `codec`: each instruction is read back from its fields, and its fields have no fault."""
from . import instructions
from .antt import VOCABULARY
from .instructions import GROUPS, LOAD_IMMEDIATE, NARROW, SIGNED, SIZES, WIDTHS, forms

INSN = """\
use Rattle.insn.specs.declared.insn.Insn.{Insn}
use Rattle.insn.specs.declared.insn.Insn.TheVariants as i
use Rattle.insn.specs.declared.insn.Operand.TheVariants.{Register, Immediate}
use Rattle.insn.specs.declared.insn.Size.TheVariants as size
use Rattle.insn.specs.Insn.{IsInsn}
"""

READING_HEAD = f"""\
-- Each well-formed instruction is read back from its spelling: so it has one, and no two have the same. Written by checks/generate.
use Rattle.std.proofs.Common.{{◌≡◌, ℕ, ℤ, ◌+◌, ◌*◌, ◌/◌, ◌%◌, ◌^◌, List, [], ◌∷◌, ◌++◌, refl, sym, ap, ◌∙◌, arith}}
use Rattle.std.specs.Prelude.{{Option, Some, None, ◌==◌, if◌then◌else◌}}
use Rattle.std.specs.Int.{{w16, w32, cast_signed, cast_unsigned}}
use Rattle.std.proofs.lemmas.Int.{{to_z-of_z}}
{VOCABULARY}{INSN}use Rattle.codec.specs.declared.fields.Fields.{{Fields}}
use Rattle.codec.specs.Spelling.{{spelling}}

abbrev imm_of : Fields → ℤ
imm_of f = cast_signed w32 f.imm

abbrev offset_of : Fields → ℤ
offset_of f = cast_signed w16 f.offset

abbrev high_of : List Fields → ℕ
high_of [] = 0
high_of (f ∷ fs) = f.imm

-- what the opcode stands for
abbrev meaning : List (ℕ × (Fields → List Fields → Insn))
meaning =
"""

READING_MIDDLE = """\
    []

abbrev looked_up : List (ℕ × (Fields → List Fields → Insn)) → Fields → List Fields → Option Insn
looked_up [] f fs = None
looked_up (e ∷ es) f fs = if e.0 == f.opcode then Some (e.1 f fs) else looked_up es f fs

abbrev reading : List Fields → Option Insn
reading [] = None
reading (f ∷ fs) = looked_up meaning f fs

-- whatever stands behind it
pub reads_back : (insn : Insn) (rest : List Fields) → IsInsn insn → reading (spelling insn ++ rest) ≡ Some insn
"""

READING_END = """
some_of : Insn → Option Insn → Insn
some_of d None = d
some_of d (Some insn) = insn

-- two well-formed instructions that begin one list of fields are the same
pub same_insn : (a b : Insn) (more rest : List Fields) → IsInsn a → IsInsn b → spelling a ++ more ≡ spelling b ++ rest → a ≡ b
unfolding some_of
same_insn a b more rest p q e = ap (some_of a) (sym (reads_back a more p) ∙ ap reading e ∙ reads_back b rest q)

-- no two well-formed instructions are spelled alike
pub one_meaning : (a b : Insn) → IsInsn a → IsInsn b → spelling a ≡ spelling b → a ≡ b
one_meaning a b p q e = same_insn a b [] [] p q (ap (λ (fs : List Fields). fs ++ []) e)
"""

# The term that reads each field.
READ = {"dst": "f.dst", "src": "f.src", "imm": "(imm_of f)", "offset": "(offset_of f)", "wide": "(f.imm + 2 ^ 32 * high_of fs)"}


def read(group):
    """The term that reads an instruction from its fields. If the opcode has several forms, it tests the field that chooses one."""
    *others, last = group
    tests = [f"if f.{form.chosen_by[0]} == {form.chosen_by[1]} then {read([form])} else " for form in others]
    return "".join(tests) + last.term([READ[part.field] for part in last.parts])


def read_back(form):
    """The proof that a form is read back. Each step shows that one signed number survives its casts."""
    if not form.exists:
        return f"absurd {form.known(-1)}"
    if form is LOAD_IMMEDIATE:
        known = "number % 2 ^ 32 + 2 ^ 32 * (number / 2 ^ 32) ≡ number"
        return f"let e : {known} = omega arith in ap (λ (n : ℕ). Some (i.LoadImmediate dst n)) e"
    signed = [k for k, part in enumerate(form.parts) if part.field in SIGNED]
    steps = []
    for k in signed:
        terms = [part.variable for part in form.parts]
        for later in signed[signed.index(k) + 1:]:
            width = f"w{SIGNED[form.parts[later].field]}"
            terms[later] = f"(cast_signed {width} (cast_unsigned {width} {terms[later]}))"
        terms[k] = "z"
        same = f"(to_z-of_z w{SIGNED[form.parts[k].field]} {form.parts[k].variable} {form.known(k)})"
        steps.append(f"ap (λ (z : ℤ). Some ({form.term(terms)})) {same}")
    return " ∙ ".join(steps) or "refl"


def reading():
    meaning = [f"    ({opcode}, λ f fs. {read(group)}) ∷\n" for opcode, group in GROUPS.items()]
    cases = [f"reads_back {form.pattern()} rest p = {read_back(form)}\n" for form in forms()]
    return "".join([READING_HEAD, *meaning, READING_MIDDLE, *cases, READING_END])


NO_FAULT_HEAD = f"""\
-- What is spelled has no fault. Written by checks/generate: a case for each opcode, and more where an operand chooses.
use Rattle.std.proofs.Common.{{◌≡◌, ◌≤◌, ℕ, List, [], ◌∷◌, false, Option, None, length, refl, subst}}
use Rattle.std.specs.Prelude.{{nat_lt}}
use Rattle.std.proofs.lemmas.Bool.{{le-ltb}}
{VOCABULARY}{INSN}use Rattle.codec.specs.declared.fault.CodecFault.{{CodecFault}}
use Rattle.codec.specs.declared.fault.CodecFault.TheVariants as faults
use Rattle.codec.specs.declared.fields.Fields.{{Fields}}
use Rattle.codec.specs.Spelling.{{spelling}}
use Rattle.codec.specs.Reading.{{is_past, first_fault, is_reserved_set, fault_in, AreUnits}}

pub none_past : (r : ℕ) → r ≤ 10 → is_past r ≡ false
none_past r le = le-ltb 10 r le

along : (f g : Fields) (behind : List ℕ) → f ≡ g → fault_in f behind ≡ None → fault_in g behind ≡ None
along f g behind same none = subst (λ (h : Fields). fault_in h behind ≡ None) same none

abbrev second_half : Fields → Option CodecFault
second_half g = first_fault ((is_reserved_set g, faults.Reserved) ∷ [])

pub no_fault : (insn : Insn) (f : Fields) (behind : List ℕ) → IsInsn insn → AreUnits (spelling insn) f behind → fault_in f behind ≡ None
"""

NO_FAULT_END = """\
no_fault (i.LoadImmediate dst number) f behind p u = along _ f behind u.0 (rw (none_past dst p.0, long) (subst (λ (g : Fields). second_half g ≡ None) u.2 refl))
  where
    long : nat_lt (length behind) 8 ≡ false
    long = le-ltb (length behind) 8 u.1
"""


def without_fault(form):
    """The proof that a form has no fault, because its registers are in range."""
    if not form.exists:
        return f"absurd {form.known(-1)}"
    ranges = [f"none_past {part.variable} {form.known(k)}" for k, part in enumerate(form.parts) if part.field in ("dst", "src")]
    proof = f"rw ({', '.join(ranges)}) refl" if ranges else "refl"
    return f"along _ f behind u ({proof})"


def no_fault():
    listed = []
    for width in WIDTHS:
        listed += [*instructions.arithmetic(width), instructions.negate(width), *instructions.extensions(width)]
        listed += instructions.branches(width)
    listed += instructions.swaps()
    for name in sorted(SIZES, key=lambda name: NARROW.get(name, 8)):
        listed += [instructions.load(name), *instructions.stores(name)]
    listed += map(instructions.load_signed, NARROW)
    listed += [instructions.JUMP, instructions.LONG_JUMP, instructions.CALL, instructions.EXIT]
    cases = [f"no_fault {form.pattern()} f behind p u = {without_fault(form)}\n" for form in listed]
    return "".join([NO_FAULT_HEAD, *cases, NO_FAULT_END])
