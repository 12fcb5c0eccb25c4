"""The table of strategies in `scenario`: the programs of examples/strategies, without their comments."""
import glob
import os

TOP = os.path.dirname(os.path.dirname(os.path.dirname(os.path.dirname(os.path.realpath(__file__)))))

HEAD = """\
//! Lists the strategies. Written by checks/generate from examples/strategies, without the programs' comments.

/// The name of each strategy, ascending, and its program in assembly.
"""

ROW = """\
    (
        "{name}",
        "{program}",
    ),
"""


def statements(text):
    """The program's lines of code, each with one space between its words."""
    lines = (" ".join(line.split(";")[0].split()) for line in text.splitlines())
    return "".join(f"{line}\n" for line in lines if line)


def table():
    rows = []
    for path in sorted(glob.glob(os.path.join(TOP, "examples", "strategies", "*.asm"))):
        with open(path, encoding="utf-8") as file:
            program = statements(file.read())
        if not program.isascii() or '"' in program or "\\" in program:
            raise ValueError(f"{path}: a character that is not plain in a text of Rust")
        rows.append(ROW.format(name=os.path.basename(path).removesuffix(".asm"), program=program))
    return f"{HEAD}pub const STRATEGIES: [(&str, &str); {len(rows)}] = [\n{''.join(rows)}];\n"
