"""Pieces of proof files: lists, numbers and imports."""

# The imports of the names from which the terms of instructions are made.
VOCABULARY = """\
use Rattle.word.specs.declared.Width.TheVariants.{W32, W64}
use Rattle.word.specs.declared.Operation.TheVariants as op
use Rattle.word.specs.declared.Condition.TheVariants as c
use Rattle.word.specs.declared.Narrow.TheVariants as narrow
use Rattle.word.specs.declared.SwapSize.TheVariants as swap
use Rattle.word.specs.declared.ByteOrder.TheVariants as order
"""


def integer(n):
    """The term of an integer."""
    return f"pos {n}" if n >= 0 else f"negsuc {-n - 1}"


def chain(terms):
    """The term of a list, without parentheses around it."""
    return " ∷ ".join([*map(str, terms), "[]"])


def runs(terms):
    """Counts equal neighbours: a list of pairs of a term and how often it is repeated."""
    counted = []
    for term in terms:
        if counted and counted[-1][0] == term:
            counted[-1][1] += 1
        else:
            counted.append([term, 1])
    return counted


def chain_of_counted(counted):
    """The term of a list that is given as pairs of a term and how often it is repeated."""
    out = ""
    for k, (term, count) in enumerate(counted):
        is_last = k == len(counted) - 1
        if count == 1:
            out += f"{term} ∷ " + ("[]" if is_last else "")
        else:
            word = f"({term})" if " " in str(term) else term
            out += f"replicate {count} {word}" + ("" if is_last else " ++ ")
    return out or "[]"


def chain_of_runs(terms):
    """The term of a list in which equal neighbours are written with `replicate`."""
    return chain_of_counted(runs(terms))


def optional(value):
    return "None" if value is None else f"Some {value}"


def boolean(value):
    return "true" if value else "false"
