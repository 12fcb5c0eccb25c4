#!/usr/bin/env python3
"""Files whose names are not UTF-8: the program's toolchain opens only names that are.

    share/names.py PROGRAM WORDS     runs the program with these words

A word with such a name is replaced by a link in a temporary folder. What the program prints about the link contains the file's
own name, with a replacement mark for each byte that is not UTF-8. If only the name of the folder is not UTF-8, the link leads to
the folder. Otherwise it leads to the file, and next to it are links to the files that the file names: a scenario names files
relative to its folder.

The other scripts of this folder use these functions too. Exit status: the program's own, or 4 if the links cannot be made.
"""
import contextlib
import json
import os
import re
import signal
import subprocess
import sys
import tempfile
import threading
import unicodedata

# The options that a file's name may follow in one word.
JOINED = (b"--schedule=", b"--chronicle=", b"--context=", b"--adversary=", b"--sum=", b"--schedule-out=", b"--keep=", b"--keep-all=", b"-o")
# The options whose file or folder is written.
WRITTEN = (b"-o", b"--keep", b"--keep-all", b"--schedule-out")
# The value of a key that is a string: the four forms of TOML.
VALUE = re.compile(rb"=[ \t]*(\"{3}.*?\"{3}|'{3}.*?'{3}|\"(?:[^\"\\\n]|\\.)*\"|'[^'\n]*')", re.S)
# A larger file is not searched for names. In bytes.
LARGEST = 64 << 20
# The name of a link to a file, and of folders around it, which no scenario uses.
OWN = b".byzlab"


def is_text(name):
    return os.fsencode(name).decode("utf-8", "ignore").encode() == os.fsencode(name)


def shown(name):
    """Returns a name as the program prints it: quoted if it contains a control character."""
    text = os.fsencode(name).decode("utf-8", "replace")
    if text.isprintable() or not any(ord(sign) < 32 or 127 <= ord(sign) < 160 for sign in text):
        return text
    return '"' + "".join(map(escaped, text)) + '"'


def escaped(sign):
    """Returns a character as it is in a string of Rust."""
    short = {"\n": "\\n", "\r": "\\r", "\t": "\\t", "\0": "\\0", '"': '\\"', "\\": "\\\\"}
    is_plain = sign.isprintable() and unicodedata.category(sign) not in ("Mn", "Me")
    return short.get(sign) or (sign if is_plain else f"\\u{{{ord(sign):x}}}")


def in_json(name):
    """Returns a name as it is in a JSON string."""
    return json.dumps(os.fsencode(name).decode("utf-8", "replace"), ensure_ascii=False)[1:-1]


def flag_of(word):
    """Returns the option before the name in a word, which is empty if the word is a name."""
    return next((flag for flag in JOINED if word.startswith(flag)), b"")


def unquoted(value):
    """Returns the text of a string of TOML, or an empty one if it has other escapes than JSON."""
    is_long = value[:3] in (b"'" * 3, b'"' * 3)
    text = re.sub(rb"\A\r?\n", b"", value[3:-3]) if is_long else value[1:-1]
    if value.startswith(b"'") or b"\\" not in text:
        return text
    try:
        return json.loads(b'"%b"' % text, strict=False).encode()
    except ValueError:
        return b""


def neighbours(name):
    """Returns the relative names of the files that a scenario names, if it is a regular file, with where they are."""
    if not os.path.isfile(name) or not os.access(name, os.R_OK) or os.path.getsize(name) > LARGEST:
        return {}
    with open(name, "rb") as file:
        named = {unquoted(value) for value in VALUE.findall(file.read())}
    folder = os.path.dirname(os.path.join(os.getcwdb(), name))
    places = {other: os.path.join(folder, other) for other in named if other[:1] not in (b"", b"/") and b"\0" not in other}
    return {other: place for other, place in places.items() if os.path.isfile(place)}


class Printed:
    """Names that the program prints, with the names that are printed instead."""

    def __init__(self):
        self.pairs = []

    def add(self, lent, name):
        texts = [(form(lent).encode(), form(name).encode("utf-8", "replace")) for form in (shown, in_json)]
        self.pairs.append(texts)

    def own(self, line):
        """Returns a line with the files' own names."""
        is_json = line.startswith(b"{")
        for texts in self.pairs:
            line = line.replace(*texts[is_json])
        return line


class Links:
    """Links in a temporary folder."""

    def __init__(self, folder):
        self.folder, self.printed, self.count = folder, Printed(), 0

    def lend(self, before, word):
        """Returns a word as the program gets it, which comes after the word `before`."""
        flag = flag_of(word)
        name = word[len(flag):]
        if is_text(word):
            return word
        if not os.path.lexists(name) and before not in WRITTEN and flag.rstrip(b"=") not in WRITTEN:
            return flag + shown(name).encode()
        self.count += 1
        place = os.path.join(self.folder, str(self.count).encode())
        head, _, base = name.rpartition(b"/")
        link = self.link_folder(place, head, base) if is_text(base) else self.link_file(place, name)
        self.printed.add(link, name)
        return flag + link

    def link_folder(self, place, head, base):
        os.symlink(os.path.join(os.getcwdb(), head), place)
        return os.path.join(place, base)

    def link_file(self, place, name):
        named = neighbours(name)
        # (`..` leads out of as many folders as it is written)
        depth = max((other.split(b"/").count(b"..") for other in named), default=0)
        folder = os.path.join(place, *[OWN] * depth)
        for other, target in {OWN: os.path.join(os.getcwdb(), name), **named}.items():
            path = os.path.join(folder, other)
            os.makedirs(os.path.dirname(path), exist_ok=True)
            if not os.path.lexists(path):
                os.symlink(target, path)
        return os.path.join(folder, OWN)


def put(number, content):
    """Writes to a stream of this number."""
    while content:
        content = content[os.write(number, content):]


def report(text):
    """Writes to standard error, if somebody reads it."""
    with contextlib.suppress(OSError):
        put(2, text.encode("utf-8", "replace") if isinstance(text, str) else text)


def answer(content):
    """Writes to standard output. If that fails, ends as the program does."""
    try:
        put(1, content)
    except OSError:
        report("fault write\n")
        sys.exit(1)


def open_closed():
    """Opens each standard stream that is closed, so that no other file takes its number. Standard output is full then."""
    for number, instead in ((0, os.devnull), (1, "/dev/full"), (2, os.devnull)):
        try:
            os.fstat(number)
        except OSError:
            os.set_inheritable(os.open(instead, os.O_RDWR), True)


def pump(source, number, printed, failed):
    """Writes what the program prints, with the files' own names. If that fails, the program's writes fail too."""
    with source:
        try:
            for line in source:
                put(number, printed.own(line))
        except OSError:
            failed.append(number)


def run(program, words, printed):
    """Runs the program, and returns its exit status."""
    # (the names are printed there only by these options, and a full disk is better reported by the program itself)
    is_named = {b"--json", b"--verdicts"} & {*words}
    pipe = subprocess.PIPE
    failed = []
    with subprocess.Popen([program, *words], stdout=pipe if is_named else None, stderr=pipe, restore_signals=False) as ran:
        streams = [(1, ran.stdout), (2, ran.stderr)]
        pumps = [threading.Thread(target=pump, args=(stream, number, printed, failed)) for number, stream in streams if stream]
        try:
            for it in pumps:
                it.start()
            for it in pumps:
                it.join()
            status = ran.wait()
        finally:
            ran.kill()
            for it in pumps:
                it.join()
    if 1 in failed and status == 0:
        report("fault write\n")
        return 1
    return status if status >= 0 else 128 - status


def stop(number, _):
    sys.exit(128 + number)


def main():
    open_closed()
    program, *words = map(os.fsencode, sys.argv[1:])
    if all(map(is_text, words)):
        os.execv(program, [program, *words])
    for number in (signal.SIGINT, signal.SIGTERM, signal.SIGHUP):
        signal.signal(number, stop)
    try:
        with tempfile.TemporaryDirectory(prefix="byzlab-names-") as folder:
            links = Links(os.fsencode(folder))
            lent = [links.lend(*pair) for pair in zip([b"", *words], words)]
            return run(program, lent, links.printed)
    except OSError as error:
        report(f"byzlab: no link to a file can be made: {error.strerror}\n")
        return 4


if __name__ == "__main__":
    sys.exit(main())
