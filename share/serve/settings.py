"""Where the programs, the page and the examples are, and what the environment says about them."""
import os
import subprocess
import sys

from .application import Laboratory
from .program import Programs

# share/ of the repository, or share/byzlab/ of a release.
SHARE = os.path.dirname(os.path.dirname(os.path.realpath(__file__)))
# What builds the programs. A release does not have it.
PROVE = os.path.join(SHARE, "prove")
IS_RELEASE = not os.path.exists(PROVE)
# The repository, or the folder with bin/ of a release.
TOP = os.path.dirname(os.path.dirname(SHARE) if IS_RELEASE else SHARE)
PROGRAMS = {"byzlab": "bin/byzlab", "surveyor": "bin/byzlab-survey"}
VARIABLES = {"byzlab": "BYZLAB", "surveyor": "SURVEYOR"}
LOOPBACK = ("127.0.0.1", "localhost", "[::1]")


class Unusable(Exception):
    """Why the server cannot start, and the exit status."""

    def __init__(self, why, status=1):
        super().__init__(why)
        self.status = status


def build():
    """Proves and builds the programs in the repository, unless they are built or BYZLAB names one."""
    if IS_RELEASE or os.environ.get("BYZLAB"):
        return
    for name in PROGRAMS:
        environment = {**os.environ, "BYZLAB_PROGRAM": name}
        try:
            status = subprocess.run([sys.executable, PROVE], env=environment, stdin=subprocess.DEVNULL).returncode
        except KeyboardInterrupt:
            status = 130
        if status:
            raise Unusable(f"the program {name} was not built", status)


def place_of(name):
    """Returns where a program is, unless a variable names another one."""
    return os.path.join(TOP, *(PROGRAMS[name].split("/") if IS_RELEASE else ("crates", name, "out", name)))


def path_of(name):
    """Returns the path of a program that can be run, or None."""
    path = os.environ.get(VARIABLES[name]) or place_of(name)
    return os.path.abspath(path) if os.path.isfile(path) and os.access(path, os.X_OK) else None


def processors():
    """Returns how many processors this process may use."""
    return len(os.sched_getaffinity(0))


def programs():
    """Returns the programs that answer requests."""
    byzlab = path_of("byzlab")
    if byzlab is None:
        path = os.environ.get("BYZLAB") or place_of("byzlab")
        how = "" if IS_RELEASE else "run `./byzlab prove`, or "
        raise Unusable(f"there is no program {path}: {how}name one in the variable BYZLAB")
    return Programs(byzlab, path_of("surveyor"))


def examples():
    """Returns the folder with the examples. An archive has it next to bin/, and an installed release among its pages."""
    places = [os.path.join(TOP, "share", "doc", "byzlab", "examples")] if IS_RELEASE else []
    named = os.environ.get("BYZLAB_EXAMPLES")
    return named or next(filter(os.path.isdir, places), os.path.join(TOP, "examples"))


def laboratory(hosts=None, workers=None):
    """Returns the application for these hosts and as many programs at once, or for what the environment says."""
    if hosts is None:
        named = os.environ.get("BYZLAB_HOSTS", ",".join(f"{name}:8000" for name in LOOPBACK))
        hosts = [name.strip() for name in named.split(",")]
    workers = workers or int(os.environ.get("BYZLAB_WORKERS") or processors())
    try:
        return Laboratory(programs(), hosts, workers, os.path.join(SHARE, "lab"), examples())
    except ValueError as error:
        raise Unusable(f"an example cannot be read: {error}") from None
