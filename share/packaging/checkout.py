"""The checkout that is packed: its files, version and commit, and how the scripts call other commands."""
import errno
import os
import re
import shutil
import signal
import subprocess
import sys
import tempfile

TOP = os.path.dirname(os.path.dirname(os.path.dirname(os.path.realpath(__file__))))


class Failure(Exception):
    """Something that ends a script: one line for each argument."""

    def lines(self):
        return [str(line) for line in self.args]


class WrongWords(Exception):
    """Words that a script does not take, and why."""


def gives_help(words, text):
    """Prints this help if the words ask for it, and returns whether they do."""
    is_asked = any(word in ("--help", "-h") for word in words)
    if is_asked:
        signal.signal(signal.SIGPIPE, signal.SIG_DFL)
        print(text.strip())
    return is_asked


def folder_of(name, option, words):
    """Returns the folder that the words of the script `name` give with its only option, or None without it."""
    if not words:
        return None
    first, is_one, value = words[0].partition("=")
    rest = words[1:] if is_one else words[2:]
    if first != option:
        raise WrongWords(f"{name} does not take `{words[0]}`: ./byzlab {name} --help")
    if rest:
        raise WrongWords(f"{name} does not take `{rest[0]}` after {option} DIR: ./byzlab {name} --help")
    folder = value if is_one else "".join(words[1:])
    if not folder or not is_one and folder.startswith("-"):
        raise WrongWords(f"{option} needs a folder: ./byzlab {name} --help")
    return os.path.abspath(os.path.expanduser(folder))


def read(name):
    with open(os.path.join(TOP, name), encoding="utf-8") as file:
        return file.read()


def call(words, **how):
    """Runs a command and returns what it prints. A status other than 0 is a failure."""
    how = {"stdin": subprocess.DEVNULL, "stdout": subprocess.PIPE, "stderr": subprocess.STDOUT, "text": True, "errors": "replace", **how}
    done = subprocess.run(words, **how)
    if done.returncode:
        raise Failure(f"`{' '.join(words)}` failed with status {done.returncode}:", *(done.stdout or "").splitlines())
    return done.stdout


def require(tools):
    """Fails if one of these commands is not on the path; each has the name of its Debian package."""
    for tool, package in tools.items():
        if not shutil.which(tool):
            raise Failure(f"the command {tool} is missing (Debian: {package})")


def toolchain():
    """Returns the folder of the Rattle toolchain."""
    found = shutil.which("rt")
    if not found:
        raise Failure("the Rattle toolchain is missing: its command rt is not on the path", 'README.md says under "The toolchain" where it comes from')
    return os.path.dirname(os.path.dirname(os.path.realpath(found)))


def version():
    """Returns the version, which is in the file VERSION and nowhere else by right (checks/versions)."""
    text = read("VERSION").strip()
    if not re.fullmatch(r"\d+\.\d+\.\d+", text):
        raise Failure(f"the file VERSION contains `{text}`, which is not of the form 1.2.3")
    return text


def git(*words):
    return call(["git", "-C", TOP, *words])


def commit():
    """Returns the commit that is checked out, and its time in seconds."""
    name, seconds = git("log", "-1", "--format=%H %ct").split()
    return name, int(seconds)


def changes():
    """Returns a line for each file that differs from the commit, or that git neither has nor ignores."""
    if os.path.realpath(git("rev-parse", "--show-toplevel").strip()) != TOP:
        raise Failure(f"{TOP} is no checkout of its own")
    return git("status", "--porcelain").splitlines()


def files(*folders):
    """Returns the names of the files that git has in these folders, or of these names, in order."""
    return sorted(filter(None, git("ls-files", "-z", "--", *folders).split("\0")))


def product(name, file):
    """Returns the path of what the crate `name` is built to. It is proved and built first, unless it already is."""
    path = os.path.join(TOP, "crates", name, "out", file)
    words, environment = [sys.executable, os.path.join(TOP, "share", "prove")], {**os.environ, "BYZLAB_PROGRAM": name}
    if subprocess.run(words, env=environment, stdin=subprocess.DEVNULL).returncode:
        raise Failure(f"the crate {name} was not built")
    return path


class Room:
    """A folder for files that are not complete, in the folder into which they are then moved. It is removed at the end, and
    so is the folder itself if it was made for it and nothing was moved there. All commands keep their temporary files there."""

    def __init__(self, folder):
        self.folder = folder

    def __enter__(self):
        self.made = make_folders(self.folder)
        self.room = tempfile.mkdtemp(prefix=".byzlab-", dir=self.folder)
        os.environ["TMPDIR"] = self.room
        return self.room

    def __exit__(self, *_):
        shutil.rmtree(self.room, ignore_errors=True)
        remove_empty(self.made)


def make_folders(path):
    """Makes a folder with those above it, and returns those that were not there, the highest first."""
    missing = []
    while not os.path.isdir(path):
        if os.path.lexists(path):
            raise NotADirectoryError(errno.ENOTDIR, os.strerror(errno.ENOTDIR), path)
        missing.insert(0, path)
        path = os.path.dirname(path)
    for folder in missing:
        os.mkdir(folder, 0o755)
    return missing


def remove_empty(folders):
    """Removes those of these folders that are empty, the last first."""
    for folder in reversed(folders):
        try:
            os.rmdir(folder)
        except OSError:
            pass
