"""The words of the command line of the server."""
import argparse
import os
import sys

HELP = os.path.join(os.path.dirname(os.path.realpath(__file__)), "help")
# The name in the file `help`.
NAME = "byzlab-serve"


class Parser(argparse.ArgumentParser):
    """A parser whose help is the file `help`, under the name by which the server was called."""

    def format_help(self):
        with open(HELP, encoding="utf-8") as file:
            return file.read().replace(NAME, self.prog)

    def error(self, message):
        print(f"{self.prog}: {message}; {self.prog} --help lists the options", file=sys.stderr)
        sys.exit(2)


def number(least, most):
    def read(word):
        if not (word.isascii() and word.isdigit() and len(word) < 9) or not least <= int(word) <= most:
            raise argparse.ArgumentTypeError(f"`{word}` is not a number from {least} to {most}")
        return int(word)

    return read


def text(word):
    """Returns a host or a name, which is not empty."""
    if not word.strip():
        raise argparse.ArgumentTypeError("it is empty")
    return word


def parser(name):
    """Returns the parser of the words for a server that was called by this name."""
    found = Parser(name, allow_abbrev=False)
    found.add_argument("--port", type=number(0, 65535), default=8000)
    found.add_argument("--host", type=text, default="127.0.0.1")
    found.add_argument("--name", type=text, action="append", default=[])
    found.add_argument("--workers", type=number(1, 256))
    found.add_argument("--open", action="store_true")
    return found
