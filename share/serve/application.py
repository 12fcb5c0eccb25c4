"""The WSGI application: it serves the page, and has the proved program answer what the page asks."""
import json
import os
import re
import time

from . import commands
from .program import Turns
from .refused import Refused

MOST_BODY = 256 * 1024
# What a browser sends anyway is read up to this size: otherwise it would not see the answer.
MOST_READ = 4 * MOST_BODY
# The seconds in which a request must arrive.
SECONDS = 10
EXERCISES = (".toml", ".asm", ".table", ".chronicle")
KINDS = {".html": "text/html", ".css": "text/css", ".js": "text/javascript", ".svg": "image/svg+xml"}
POLICY = "; ".join(
    (
        "default-src 'none'",
        "script-src 'self'",
        "style-src 'self'",
        "img-src 'self' blob: data:",
        "connect-src 'self'",
        "base-uri 'none'",
        "form-action 'none'",
        "frame-ancestors 'none'",
    )
)
HEADERS = [
    ("Content-Security-Policy", POLICY),
    ("X-Content-Type-Options", "nosniff"),
    ("Referrer-Policy", "no-referrer"),
    ("Cross-Origin-Opener-Policy", "same-origin"),
    ("Cross-Origin-Resource-Policy", "same-origin"),
    ("Cache-Control", "no-store"),
]


class Laboratory:
    """The application for browsers that call it by one of these hosts. It stores nothing and logs nothing."""

    def __init__(self, programs, hosts, workers, page, examples):
        self.programs, self.turns = programs, Turns(workers)
        self.hosts = frozenset(name.lower() for name in hosts)
        self.files = pages(page)
        known = {"stories": texts(examples, ".toml", is_story), "strategies": texts(os.path.join(examples, "strategies"), ".asm")}
        known.update(tables=texts(examples, ".table"), schedules=texts(examples, ".schedule"), searches=programs.has("surveyor"))
        known.update(exercises=exercises(os.path.join(examples, "exercises")), tasks=tasks(examples))
        self.files["/examples.json"] = "application/json", json.dumps(known).encode()
        self.late_order = text_of(os.path.join(examples, "surveys", "late_order.asm"))

    def __call__(self, environ, start_response):
        headers = []
        try:
            self.admit(environ)
            status, (kind, answer, *headers) = "200 OK", self.answer(environ)
        except Refused as refused:
            status, kind, headers = refused.status, "application/json", refused.headers
            answer = json.dumps({"error": str(refused)}).encode()
        headers = [("Content-Type", f"{kind}; charset=utf-8"), ("Content-Length", str(len(answer))), *headers, *HEADERS]
        start_response(status, headers)
        return [] if environ["REQUEST_METHOD"] == "HEAD" else [answer]

    def admit(self, environ):
        """Refuses a request to another name (DNS rebinding), or from another site."""
        host = environ.get("HTTP_HOST", "").lower()
        if host not in self.hosts:
            raise Refused("421 Misdirected Request", "The laboratory does not have this name.")
        if environ.get("HTTP_ORIGIN", f"http://{host}") not in (f"http://{host}", f"https://{host}"):
            raise Refused("403 Forbidden", "The request comes from another site.")
        if environ.get("HTTP_SEC_FETCH_SITE", "none") not in ("none", "same-origin") and not is_followed_link(environ):
            raise Refused("403 Forbidden", "The request comes from another site.")

    def answer(self, environ):
        """Returns the type of the answer, its bytes and further headers."""
        method, path = environ["REQUEST_METHOD"], environ.get("PATH_INFO", "")
        if path in self.files:
            if method not in ("GET", "HEAD"):
                raise Refused("405 Method Not Allowed", "A page can only be read.", ("Allow", "GET, HEAD"))
            return self.files[path]
        command = commands.COMMANDS.get(path[len("/api/") :] if path.startswith("/api/") else None)
        if command is None or environ.get("QUERY_STRING"):
            raise Refused("404 Not Found", "There is no such page.")
        if method != "POST":
            raise Refused("405 Method Not Allowed", "A command is sent by POST.", ("Allow", "POST"))
        return self.run(command, command.call(body(environ)))

    def run(self, command, call):
        """Has a program make an answer. What it refuses is an answer too; the header Byzlab-Status is its exit status."""
        if not self.programs.has(command.program):
            raise Refused("404 Not Found", "The program that searches for campaigns is not built: run `./byzlab survey` once.")
        text = self.late_order if call.has_late_order() else call.text or b""
        answer = self.turns.take(self.programs.run, command.program, call.words, text, call.second)
        if answer.status not in (0, 1):
            raise Refused("422 Unprocessable Content", "The program could not answer with the memory that it has.")
        kind = command.kind if answer.status == 0 else command.kind_of_refusal
        return kind, answer.text, ("Byzlab-Status", str(answer.status))


def is_followed_link(environ):
    """Returns whether a browser opens a page because somebody followed a link on another site."""
    return environ["REQUEST_METHOD"] == "GET" and environ.get("HTTP_SEC_FETCH_MODE") == "navigate"


def body(environ):
    """Returns the object that a request contains."""
    length = environ.get("CONTENT_LENGTH") or ""
    if not re.fullmatch(r"[0-9]{1,9}", length):
        raise Refused("411 Length Required", "A request needs its length.")
    if int(length) > MOST_BODY:
        drain(environ["wsgi.input"], min(int(length), MOST_READ))
        raise Refused("413 Content Too Large", f"A request has at most {MOST_BODY} bytes.")
    if environ.get("CONTENT_TYPE", "").split(";")[0].strip().lower() != "application/json":
        raise Refused("415 Unsupported Media Type", "A request is application/json.")
    try:
        request = json.loads(content_of(environ["wsgi.input"], int(length)).decode("utf-8"))
    except (ValueError, RecursionError):
        raise Refused("400 Bad Request", "The request is not JSON.") from None
    if not isinstance(request, dict):
        raise Refused("400 Bad Request", "A request is an object.")
    return request


def content_of(stream, length):
    """Returns the bytes of a body."""
    content = b"".join(parts_of(stream, length))
    if len(content) < length:
        raise Refused("400 Bad Request", "The request is shorter than it says.")
    return content


def drain(stream, length):
    """Reads a body and forgets it."""
    for _ in parts_of(stream, length):
        pass


def parts_of(stream, length):
    """Yields the parts of a body as they arrive, until it has this length or ends. The connection limits the time for each part,
    and SECONDS the time for all of them."""
    read, end = getattr(stream, "read1", stream.read), time.monotonic() + SECONDS
    while length > 0:
        try:
            part = read(min(length, 65536))
        except OSError:
            part = None
        if part is None or time.monotonic() > end:
            raise Refused("408 Request Timeout", "The request did not arrive.")
        if not part:
            return
        length -= len(part)
        yield part


def pages(folder):
    """Returns the type and content of each file of the page by its path."""
    found = {}
    for name in sorted(os.listdir(folder)):
        kind = KINDS.get(os.path.splitext(name)[1])
        if kind:
            with open(os.path.join(folder, name), "rb") as file:
                found[f"/{name}"] = kind, file.read()
    found["/"] = found["/index.html"]
    return found


def texts(folder, ending, is_wanted=lambda text: True):
    """Returns the texts of a folder's files with this ending, by name."""
    found = {}
    for name in sorted(os.listdir(folder) if os.path.isdir(folder) else ()):
        if name.endswith(ending):
            text = text_of(os.path.join(folder, name)).decode("utf-8")
            if is_wanted(text):
                found[name[: -len(ending)]] = text
    return found


def exercises(folder):
    """Returns the texts of the exercises' files by their names."""
    return {name + ending: text for ending in EXERCISES for name, text in texts(folder, ending).items()}


def tasks(examples):
    """Returns what examples/exercises/tasks.json says about the exercises, by their names."""
    return json.loads(text_of(os.path.join(examples, "exercises", "tasks.json")) or b"{}")


def text_of(path):
    """Returns the content of a file, or nothing if it is missing."""
    try:
        with open(path, "rb") as file:
            return file.read()
    except OSError:
        return b""


def is_story(text):
    """Returns whether a file of TOML is a campaign: it says what the commander orders."""
    return re.search(r"^order *=", text, re.M) is not None
