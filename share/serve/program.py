"""Runs the proved program: a process for each request, with limits, in the order in which requests arrive."""
import fcntl
import os
import resource
import signal
import struct
import subprocess
import tempfile
import termios
import threading
import time
from concurrent.futures import ThreadPoolExecutor

from .refused import Refused

# The most bytes of an answer, the seconds that a program may take by the clock, and how many requests may wait.
MOST_ANSWER = 4 * 1024 * 1024
WALL = 5
QUEUE = 64
MEGABYTE = 1024 * 1024
# What a process may use: seconds of the processor (it is ended softly, and a second later in any case), memory, bytes that it
# writes.
LIMITS = {
    resource.RLIMIT_CPU: (2, 3),
    resource.RLIMIT_DATA: (256 * MEGABYTE, 256 * MEGABYTE),
    resource.RLIMIT_AS: (1024 * MEGABYTE, 1024 * MEGABYTE),  # (with what its threads reserve and never use)
    resource.RLIMIT_FSIZE: (MOST_ANSWER, MOST_ANSWER),
    resource.RLIMIT_CORE: (0, 0),
}
# A process that has begun to read has opened its libraries and its second file. From then on it can open nothing more.
STREAMS = 3
BEGUN, PAUSE = 2, 0.0005


class Answer:
    """What a program answered: its exit status and its text."""

    def __init__(self, status, text):
        self.status, self.text = status, text


class Programs:
    """The programs byzlab and surveyor (None if it is not built), with the empty folder in which they run."""

    def __init__(self, byzlab, surveyor):
        self.paths = {"byzlab": byzlab, "surveyor": surveyor}
        # Nobody can make a file in a folder that has been removed, not even root, and it stays as long as it is open.
        folder = tempfile.mkdtemp()
        self.folder = os.open(folder, os.O_RDONLY | os.O_DIRECTORY)
        os.rmdir(folder)

    def has(self, name):
        return self.paths[name] is not None

    def run(self, name, words, text, second=None):
        """Returns the answer of a program that reads this text from standard input.

        A word None means a file with the second text."""
        out, err = os.memfd_create("out"), os.memfd_create("err")
        extra = [os.memfd_create("second")] if second is not None else []
        try:
            for file in extra:
                write_all(file, second)
            named = [f"/dev/fd/{extra[0]}" if word is None else word for word in words]
            status = self.ended([self.paths[name], *named], text, (out, err), extra)
            length = os.fstat(out).st_size
            if length >= MOST_ANSWER or status == -signal.SIGXFSZ:
                raise Refused("422 Unprocessable Content", "The answer is too long for the laboratory in a browser.")
            if status < 0:
                raise ended_by(-status)
            return Answer(status, os.pread(out, length, 0) or os.pread(err, MOST_ANSWER, 0))
        finally:
            for file in (out, err, *extra):
                os.close(file)

    def ended(self, command, text, streams, extra):
        """Starts a process, sets its limits, gives it the text and returns its exit status."""
        out, err = streams
        how = {"stdin": subprocess.PIPE, "stdout": out, "stderr": err, "pass_fds": extra, "env": {}}
        how.update(cwd=f"/proc/self/fd/{self.folder}", start_new_session=True)
        with subprocess.Popen(command, **how) as child:
            try:
                limit(child, text)
                child.communicate(text[1:], timeout=WALL)
            except subprocess.TimeoutExpired:
                raise Refused("422 Unprocessable Content", f"The program took more than {WALL} seconds.") from None
            except (ProcessLookupError, BrokenPipeError):
                pass  # (it has ended without reading)
            finally:
                child.kill()
        return child.returncode


def limit(child, text):
    """Sets the limits of a process, and gives it the first byte of its text, so that it has read nothing from the request without
    all of them. (A preexec_fn is not safe among threads.)"""
    for what, most in LIMITS.items():
        resource.prlimit(child.pid, what, most)
    if text:
        child.stdin.write(text[:1])
        child.stdin.flush()
        end = time.monotonic() + BEGUN
        while unread(child.stdin) and child.poll() is None and time.monotonic() < end:
            time.sleep(PAUSE)
        resource.prlimit(child.pid, resource.RLIMIT_NOFILE, (STREAMS, STREAMS))


def unread(pipe):
    """Returns how many bytes of a pipe have not been read."""
    return struct.unpack("i", fcntl.ioctl(pipe, termios.FIONREAD, bytes(4)))[0]


def write_all(file, data):
    while data:
        data = data[os.write(file, data) :]


def ended_by(number):
    """Returns what to answer if a signal ended a program."""
    if number == signal.SIGXCPU:
        return Refused("422 Unprocessable Content", "The program took too much time.")
    if number == signal.SIGKILL:  # (somebody ended it, or the machine is out of memory: this request may be sent again)
        return Refused("503 Service Unavailable", "The program was ended from outside.", ("Retry-After", "1"))
    return Refused("422 Unprocessable Content", "The program took too much memory.")


class Turns:
    """Lets a number of calls run at once and up to 64 wait, in the order in which they came."""

    def __init__(self, workers):
        self.places = threading.BoundedSemaphore(workers + QUEUE)
        self.pool = ThreadPoolExecutor(workers)

    def take(self, *call):
        """Returns what the call returns. Refuses it if too many wait."""
        if not self.places.acquire(blocking=False):
            raise Refused("503 Service Unavailable", "Too many requests are waiting.", ("Retry-After", "1"))
        try:
            return self.pool.submit(*call).result()
        finally:
            self.places.release()
