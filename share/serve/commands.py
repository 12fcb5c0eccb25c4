"""The commands that a browser may give: no word of a request becomes a word of a command line except by this table."""
from .refused import Refused

TEXT, LINES, SVG, HTML = "text/plain", "application/x-ndjson", "image/svg+xml", "text/html"
MOST_GENERALS = 13


class Call:
    """The words of a command line, the text for standard input (or None), and that of a second file (or None). The word None is
    the name of that file."""

    def __init__(self, words, text, second):
        self.words, self.text, self.second = words, text, second

    def has_late_order(self):
        """Returns whether a survey's traitors have the program of examples/surveys/late_order.asm, as standard input."""
        return "--adversary" in self.words


class Command:
    """A command: its program and words, and what a request may add. `numbers` gives each number's option, least and greatest value;
    `lists` the option of a list of generals; `switches` the words that a 1 adds; `files` the words after the first file for the
    text of a second one. A scenario may name no file: the program refuses it."""

    def __init__(self, words, kind, numbers=None, switches=None, program="byzlab", files=None, is_scenario=True, lists=None):
        self.words, self.kind, self.program, self.files = words, kind, program, files or {}
        self.numbers, self.switches, self.is_scenario, self.lists = numbers or {}, switches or {}, is_scenario, lists or {}
        self.kind_of_refusal = LINES if "--json" in words else TEXT

    def call(self, request):
        """Returns the call that a request asks for."""
        words, files, text, second = list(self.words), ["-"], None, None
        if self.is_scenario and self.program == "byzlab":
            words.append("--no-files")
        for name, value in request.items():
            if name == "text" and self.program == "byzlab":
                text = encoded(value)
            elif name in self.files:
                second = encoded(value)
                files += self.files[name]
            elif name in self.lists:
                words += generals(self.lists[name], value)
            else:
                words += self.option(name, value)
        if text is None and self.program == "byzlab":
            raise Refused("400 Bad Request", "A request has a text.")
        return Call(words + files if self.program == "byzlab" else words, text, second)

    def option(self, name, value):
        """Returns the words for a number of a request."""
        if type(value) is int:
            if name in self.numbers:
                option, least, most = self.numbers[name]
                if least <= value <= most:
                    return [option, str(value)]
            elif name in self.switches and value in (0, 1):
                return self.switches[name] * value
        raise Refused("400 Bad Request", "The command does not take this word or number.")


class Tree(Command):
    """The tree of a lieutenant, whom each request names."""

    def call(self, request):
        if "of" not in request:
            raise Refused("400 Bad Request", "A tree needs a lieutenant.")
        return super().call(request)


class Refutation(Command):
    """The message table that breaks a rule. Each request has the three numbers of the campaign, and no text."""

    def call(self, request):
        if not set(self.numbers) <= set(request):
            raise Refused("400 Bad Request", "A table needs the generals, the bound and the commander.")
        words = list(self.words)
        for name in request:
            if name not in self.numbers:
                words += self.option(name, request[name])
        for name in self.numbers:
            words += self.option(name, request[name])[1:]
        return Call(words, None, None)


class Search(Command):
    """The search for a campaign that breaks. It takes both numbers, and plays as many campaigns as the time allows: with no
    more traitors than one above the bound, who are enough if any are."""

    def call(self, request):
        found = super().call(request)
        if not {"generals", "bound"} <= set(request):
            raise Refused("400 Bad Request", "A search needs the generals and the bound.")
        found.words += ["--traitors", f"1..{request['bound'] + 1}", "--seeds", f"1..{seeds(request['generals'], request['bound'])}"]
        return found


def seeds(generals, bound):
    if bound < 4:
        return 300
    return 30 if generals < 12 else 10


def generals(option, value):
    """Returns the words that name the generals of a list, each once."""
    if not isinstance(value, list) or any(type(one) is not int or not 0 <= one < MOST_GENERALS for one in value):
        raise Refused("400 Bad Request", "The generals are a list of numbers from 0 to 12.")
    if len(set(value)) < len(value):
        raise Refused("400 Bad Request", "A general is listed twice.")
    return [option, ",".join(map(str, value))] if value else []


def encoded(value):
    """Returns a text of a request in UTF-8."""
    if not isinstance(value, str):
        raise Refused("400 Bad Request", "A text is a string.")
    try:
        return value.encode("utf-8")
    except UnicodeEncodeError:
        raise Refused("400 Bad Request", "The text is not Unicode.") from None


OF = {"of": ("--of", 0, MOST_GENERALS - 1)}
CAMPAIGNS = {"generals": ("--generals", 2, MOST_GENERALS), "bound": ("--bound", 0, 4)}
SCHEDULE = {"schedule": ["--schedule", None]}
TRAITORS = {"traitors": "--traitors"}
MEDIAN = {"median": ["--rule", "median"]}
KINDS_OF_CAMPAIGNS = {**MEDIAN, "signed": ["--signed", "--adversary", "-"]}
# (an argument has no option)
REFUTED = {"generals": ("", 3, MOST_GENERALS - 1), "bound": ("", 1, 4), "commander": ("", 0, MOST_GENERALS - 2)}

COMMANDS = {
    "check": Command(["check", "--asm", "--json", "--explain"], LINES, is_scenario=False),
    "play": Command(["play", "--json", "--explain"], LINES, OF, files=SCHEDULE),
    "chronicle": Command(["play"], TEXT, files=SCHEDULE),
    "tree": Tree(["tree", "--svg"], SVG, {**OF, "depth": ("--depth", 0, 4)}, {"fold": ["--fold"]}, lists=TRAITORS),
    "draw": Command(["draw"], SVG, files=SCHEDULE),
    "page": Command(["page"], HTML, files=SCHEDULE),
    "audit": Command(["audit", "--explain"], TEXT, files={"chronicle": [None]}),
    "book": Command(["book", "--explain"], TEXT, is_scenario=False, lists=TRAITORS),
    "refute": Refutation(["refute"], TEXT, REFUTED, MEDIAN),
    "explore": Command(["explore"], TEXT, {"most": ("--most", 1, 100000)}),
    "break": Search(["--break"], TEXT, CAMPAIGNS, KINDS_OF_CAMPAIGNS, program="surveyor"),
}
