"""The page of the laboratory in a browser (share/lab), led as a pupil leads it: for checks/browser/run.

What the page shows is compared with the program's chronicle, which is read here without the page's code.
"""
import json
import os
import re
import subprocess
import sys
import time
from contextlib import contextmanager

from chromium import Tab

TOP = os.path.dirname(os.path.dirname(os.path.dirname(os.path.realpath(__file__))))
WIDTHS = ((360, 740), (1024, 768), (1920, 1080))
# What can be touched is at least this wide and high, in pixels (WCAG 2.2, 2.5.8).
LEAST_TARGET = 24
# The links of a page into the laboratory.
LINKS = r"\]\(http://127\.0\.0\.1:8000/(#[^)]*)\)"
SCHEMES = ("light", "dark")
LOOKS = ("overlaps", "strikes", "cuts", "breaks", "scrolls", "faint")
KEYS = {"ArrowRight": 39, "ArrowLeft": 37, "ArrowDown": 40, " ": 32, "Tab": 9, "Enter": 13}
NAMED = ("button", "link", "textbox", "combobox", "checkbox", "spinbutton", "searchbox", "region", "group", "image", "DisclosureTriangle", "form", "heading")
PATIENCE = 30
# A program that the verifier rejects at its line 6, and the same with the mask that it lacks.
WIDE = "ldd r2, [r1+32]\nand r2, 15\nmov r3, r10\nadd r3, -8\nadd r3, r2\nstb [r3+0], 1\nmov r0, 0\nexit\n"
MASKED = WIDE.replace("15", "7")
MISSPELT = "mov r1, 1\nmov r2, 0\ncall sayy\nexit\n"


# ---- chronicles


class Chronicle:
    """A chronicle's messages as the page reads them aloud, by round, and its decisions and verdict."""

    def __init__(self, text):
        lines = [line.split() for line in text.splitlines()]
        numbers = lines[1][lines[1][0] == "signed" :]
        head = {key: number for key, number in zip(numbers[::2], numbers[1::2])}
        self.n, self.commander, self.order = (int(head[key]) for key in ("generals", "commander", "order"))
        self.traitors = {int(line[1]) for line in lines if line[0] == "letter" and line[2] != "loyal"}
        self.rounds, self.taken, self.decisions = [], {}, {}
        for line in lines[2:]:
            self.read(line)
        self.is_broken = "no" in (lines[-1][2], lines[-1][4])
        self.is_alike = lines[-1][2] == "yes"

    def read(self, line):
        if line[0] == "round":
            self.rounds.append({})
        elif line[0] == "letter":
            self.sender, self.relayed = int(line[1]), self.labels(int(line[1]))
        elif line[0] == "row":
            label = self.relayed[int(line[1])]
            receivers = [one for one in range(self.n) if one != self.sender and one not in label]
            for receiver, word in zip(receivers, line[2:]):
                order = None if word == "-" else int(word)
                right = self.taken.get((label, self.sender), 0) if label else self.order
                self.add(receiver, order, order != right and self.sender in self.traitors)
                self.taken[label + (self.sender,), receiver] = order or 0
        elif line[0] == "chain" and line[4] != "-":
            is_first = line[2] == str(self.sender)
            for receiver in line[4].split("."):
                self.add(int(receiver), int(line[1]), is_first and int(line[1]) != self.order)
        elif line[0] == "decision":
            self.decisions[int(line[1])] = int(line[-1])

    def labels(self, sender):
        """The labels that a general relays in the last round, sorted."""
        length = len(self.rounds) - 1
        if length == 0:
            return [()] if sender == self.commander else []
        found = [] if sender == self.commander else [(self.commander,)]
        for _ in range(length - 1):
            found = [label + (one,) for label in found for one in range(self.n) if one not in label and one != sender]
        return found

    def add(self, receiver, order, is_lie):
        self.rounds[-1].setdefault((self.sender, receiver), []).append((order, is_lie))

    def spoken(self, rounds):
        """What the page calls the messages of the first rounds, sorted."""
        found = []
        for number, groups in enumerate(self.rounds[:rounds], 1):
            for (sender, receiver), messages in groups.items():
                orders = [order for order, _ in messages]
                parts = [f"{'nothing' if order is None else f'the order {order}'}{f', {orders.count(order)} times' if orders.count(order) > 1 else ''}" for order in dict.fromkeys(orders)]
                is_lie = any(lie for _, lie in messages) and any(order is not None for order in orders)
                found.append(f"Round {number}: general {sender} sends general {receiver} {'; '.join(parts)}{', a lie' if is_lie else ''}")
        return sorted(found)


def stories():
    """The text and the chronicle's name of each campaign in examples/."""
    folder = os.path.join(TOP, "examples")
    found = {}
    for name in sorted(os.listdir(folder)):
        if name.endswith(".toml"):
            with open(os.path.join(folder, name), encoding="utf-8") as file:
                text = file.read()
            if re.search(r"^order *=", text, re.M):
                found[name[: -len(".toml")]] = text
    return found


# ---- the server and the page


def program():
    return os.environ.get("BYZLAB", os.path.join(TOP, "crates", "byzlab", "out", "byzlab"))


@contextmanager
def served(port=0):
    """Starts a server; its address."""
    command = [sys.executable, *os.environ.get("SERVE", os.path.join(TOP, "share", "serve")).split(), "--port", str(port)]
    environ = {**os.environ, "BYZLAB": program(), "PYTHONDONTWRITEBYTECODE": "1"}
    with subprocess.Popen(command, env=environ, stdout=subprocess.PIPE, text=True) as server:
        try:
            yield server.stdout.readline().strip()
        finally:
            server.kill()


def answer(*words, text=None):
    """What the program answers to these words."""
    return subprocess.run([program(), *words], input=text, capture_output=True, text=True, check=True).stdout


def chronicle_of(text, *words):
    return Chronicle(answer("play", *words, "-", text=text))


def content_of(*names):
    with open(os.path.join(TOP, *names), encoding="utf-8") as file:
        return file.read()


class Led(Tab):
    """A tab with the page, and what a pupil does with it."""

    def __init__(self, browser, address, width=1024, height=768, scheme="light"):
        super().__init__(browser, address)
        self.size, self.scheme = (width, height), scheme

    def __enter__(self):
        super().__enter__()
        self.show(*self.size, self.scheme)
        self.settle()
        return self

    def until(self, what):
        """Waits until something holds; whether it did."""
        end = time.monotonic() + PATIENCE
        while not self.ask(f"Boolean({what})"):
            if time.monotonic() > end:
                return False
            time.sleep(0.03)
        return True

    def settle(self):
        """Waits for the program's answer to the last change."""
        time.sleep(0.1)
        return self.until("document.querySelector('.pane:not(.stale) .heads, #fault:not([hidden])')")

    def click(self, selector):
        self.ask(f"document.querySelector({json.dumps(selector)}).dispatchEvent(new MouseEvent('click', {{ bubbles: true, cancelable: true }}))")

    def choose(self, selector, value):
        self.ask(f"(() => {{ const field = document.querySelector({json.dumps(selector)}); field.value = {json.dumps(value)}; field.dispatchEvent(new Event('change', {{ bubbles: true }})); }})()")
        self.settle()

    def type(self, text, selector="#program"):
        self.ask(f"(() => {{ const field = document.querySelector({json.dumps(selector)}); field.value = {json.dumps(text)}; field.setSelectionRange(0, 0); field.dispatchEvent(new Event('input', {{ bubbles: true }})); }})()")

    def key(self, key):
        self.press(key, key if len(key) > 1 else "Space", KEYS[key], {" ": " ", "Enter": "\r"}.get(key, ""))

    def text(self, selector):
        return self.ask(f"document.querySelector({json.dumps(selector)})?.textContent ?? ''").strip()

    def all(self, selector, what):
        return self.ask(f"[...document.querySelectorAll({json.dumps(selector)})].map((one) => {what})")

    def messages(self):
        return sorted(self.all(".pane:first-child .message", "one.getAttribute('aria-label')"))

    def decisions(self):
        return {int(general): value for general, value in self.all(".pane:first-child .decision", "[one.dataset.general, one.querySelector('b').textContent]")}

    def to_the_end(self):
        for _ in range(8):
            if not self.ask("document.querySelector('#next').disabled"):
                self.click("#next")


# ---- what is wrong


class Wrong:
    """The faults that were found, each with the story or state in which it was."""

    def __init__(self, asked, keep):
        self.lines, self.asked, self.keep, self.looked = [], asked, keep, 0

    def add(self, *lines):
        for line in lines:
            if line not in self.lines:
                self.lines.append(line)

    def unless(self, what, got, wanted=True):
        if got != wanted:
            self.add(f"{what}: {str(got)[:300]}, not {str(wanted)[:300]}")

    def look(self, tab, state):
        """Looks at a state at all widths, light and dark, and listens to it."""
        for width, height in WIDTHS:
            for scheme in SCHEMES:
                tab.show(width, height, scheme)
                time.sleep(0.3)  # (the page draws itself again 200 ms after its size has changed)
                tab.ask("scrollTo(0, 0)")  # (what scrolls below what stays in sight is no overlap)
                self.looked += 1
                self.add(*(f"{state}, {width} {scheme}: {line}" for line in sum(self.asked(tab, *LOOKS), [])))
                self.add(*(f"{state}, {width}: {line}" for line in too_small(tab)))
                if self.keep:
                    photograph(tab, os.path.join(self.keep, f"lab_{state.replace(' ', '_')}_{width}_{scheme}.png"), width)
        self.add(*(f"{state}: {line}" for line in unnamed(tab)))
        tab.show(*tab.size, tab.scheme)
        time.sleep(0.3)


def photograph(tab, path, width):
    from base64 import b64decode

    height = tab.ask("document.documentElement.scrollHeight")
    picture = tab.call("Page.captureScreenshot", captureBeyondViewport=True, clip={"x": 0, "y": 0, "width": width, "height": min(height, 6000), "scale": 1})
    with open(path, "wb") as file:
        file.write(b64decode(picture["data"]))


def too_small(tab):
    """What can be touched and is too small for a finger. A message of the diagram is touched in a rectangle around its value."""
    found = """[...document.querySelectorAll("button, select, input, textarea, summary, [role=button]")].filter((one) => one.checkVisibility()).map((one) => {
        const box = (one.querySelector(".touched") ?? one.closest("label.check") ?? one).getBoundingClientRect();
        return [one.getAttribute("aria-label") || one.id || one.textContent, box.width, box.height];
    })"""
    return [f"{name[:60]} is {width:.0f} by {height:.0f}" for name, width, height in tab.ask(found) if min(width, height) < LEAST_TARGET - 0.5]


def unnamed(tab):
    """What a screen reader cannot name, and headings that skip a level."""
    wrong, level = [], 0
    for node in tab.call("Accessibility.getFullAXTree")["nodes"]:
        role, name = (str(node.get(key, {}).get("value", "")).strip() for key in ("role", "name"))
        if node["ignored"] or role not in NAMED:
            continue
        if not name and not (role == "group" and is_fold(tab, node)):
            wrong.append(f"a {role} has no name")
        if role == "heading":
            now = next(int(one["value"]["value"]) for one in node["properties"] if one["name"] == "level")
            level = now
    return wrong + ([] if level else ["there is no heading"])


def is_fold(tab, node):
    """Whether a group is the element details, which its summary names."""
    described = tab.call("DOM.describeNode", backendNodeId=node["backendDOMNodeId"])["node"]
    return described["localName"] in ("details", "fieldset")


# ---- what a pupil does


def story(browser, address, name, text, wrong, place):
    """Sets up a story, steps through it, asks why, predicts and shares it."""
    chronicle = chronicle_of(text)
    (width, height), scheme = WIDTHS[place % 3], SCHEMES[place % 2]
    with Led(browser, address, width, height, scheme) as tab:
        tab.choose("#story", name)
        wrong.unless(f"{name}: the story", tab.text("#story-text") != "")
        wrong.unless(f"{name}: before round 1", tab.messages(), [])
        if tab.ask("document.querySelector('.everybody') !== null"):
            tab.click(".everybody")
        for number in range(1, len(chronicle.rounds) + 1):
            tab.click("#next")
            wrong.unless(f"{name}: after round {number}", tab.messages(), chronicle.spoken(number))
            wrong.unless(f"{name}: decisions in round {number}", tab.decisions(), {})
        tab.click("#next")
        decided(tab, name, chronicle, wrong)
        why(tab, name, chronicle, wrong)
        wrong.look(tab, name)
        at_all_widths(tab, name, chronicle, wrong)
        predicted(tab, name, chronicle, wrong)
        tab.click("#share")
        tab.until("document.querySelector('#copied').textContent !== ''")
        link = tab.ask("document.querySelector('#link').value")
        wrong.add(*(f"{name}: {line}" for line in messages(tab)))
    with Led(browser, link, 360, 740) as tab:
        for way in ("shared", "reloaded"):
            tab.to_the_end()
            decided(tab, f"{name}, {way}", chronicle, wrong)
            wrong.unless(f"{name}, {way}: its story", tab.ask("document.querySelector('#story').value"), name)
            tab.browser.events = []
            tab.call("Page.reload")
            tab.browser.wait(tab.is_loaded)
            frame = tab.call("Page.getFrameTree")["frameTree"]["frame"]["id"]
            tab.world = tab.call("Page.createIsolatedWorld", frameId=frame, worldName="checks")["executionContextId"]
            tab.settle()


def at_all_widths(tab, name, chronicle, wrong):
    """The messages and decisions are the chronicle's at each width, light and dark, whether they are drawn or listed."""
    for width, height in WIDTHS:
        for scheme in SCHEMES:
            tab.show(width, height, scheme)
            time.sleep(0.3)
            if tab.ask("document.querySelector('.everybody') !== null"):
                tab.click(".everybody")
            wrong.unless(f"{name}, {width} {scheme}: messages", tab.messages(), chronicle.spoken(len(chronicle.rounds)))
            decided(tab, f"{name}, {width} {scheme}", chronicle, wrong)
    tab.show(*tab.size, tab.scheme)
    time.sleep(0.3)


def decided(tab, name, chronicle, wrong):
    """The decisions and the verdict are the chronicle's."""
    wrong.unless(f"{name}: decisions", tab.decisions(), {general: str(value) for general, value in chronicle.decisions.items()})
    wrong.unless(f"{name}: broken", tab.ask("document.querySelector('#said').classList.contains('broken')"), chronicle.is_broken)


def why(tab, name, chronicle, wrong):
    """A click on a general shows how he decides, and a click on a message where it came from."""
    general = min(chronicle.decisions)
    tab.click(f".head:nth-child({general + 1})")
    tab.until("document.querySelector('.why li, .tree img')")
    last = (tab.all(".why li", "one.textContent") or [""])[-1]
    wrong.unless(f"{name}: why general {general} decides", re.search(rf"^decision {general} (?:traitor )?{chronicle.decisions[general]}\b", last) is not None)
    if tab.ask("document.querySelector('.tree img') !== null"):
        wrong.unless(f"{name}: the tree", tab.until("document.querySelector('.tree img').naturalWidth > 0"))
    if tab.ask("document.querySelector('.message') !== null"):
        tab.click(".message")
        wrong.unless(f"{name}: where a message came from", tab.ask("document.querySelectorAll('.detail .histories li, .message.lit').length > 1"))
    tab.click(".detail .close")
    tab.click(f".head:nth-child({general + 1})")
    tab.click(".detail .close") if not tab.ask("document.querySelector('.detail').hidden") else None


def predicted(tab, name, chronicle, wrong):
    """Decisions are hidden until each has been predicted. All predictions are right but the last, whether they agree."""
    loyal = [general for general in chronicle.decisions if general not in chronicle.traitors]
    tab.click("#predict")
    wrong.unless(f"{name}: hidden decisions", set(tab.decisions().values()), {"?"})
    for general in loyal:
        value = chronicle.decisions[general]
        tab.click(f"#ask [data-key^='{general} {value}']")
        wrong.unless(f"{name}: hidden after a prediction", set(tab.decisions().values()), {"?"})
    tab.click(f"#ask [data-key='alike {'no' if chronicle.is_alike else 'yes'}']")
    wrong.unless(f"{name}: predictions", tab.text("#said").startswith(f"You had {len(loyal)} of {len(loyal) + 1} right"))
    decided(tab, f"{name}, predicted", chronicle, wrong)
    tab.click("#predict")


def messages(tab, *allowed):
    """What the console says, and what was asked of other places."""
    entries = [event["entry"] for event in tab.told("Log.entryAdded")]
    found = [f"the console says {entry['text'][:200]}" for entry in entries if not any(part in entry["text"] for part in allowed)]
    thrown = [event["exceptionDetails"].get("exception", {}).get("description", "?") for event in tab.told("Runtime.exceptionThrown")]
    asked = {event["request"]["url"] for event in tab.told("Network.requestWillBeSent")}
    place = tab.address.split("#")[0]
    far = [address for address in asked if not address.startswith((place, "data:", f"blob:{place}", "about:"))]
    return found + [f"a script failed: {what[:300]}" for what in thrown] + [f"it asks {address}" for address in far]


def edited(browser, address, wrong):
    """A traitor's own program is checked as one types, and the explanation is under its line."""
    with Led(browser, address) as tab:
        tab.click("#generals button:nth-child(3)")
        tab.settle()
        tab.click(".card button")
        wrong.unless("editor: a strategy is accepted", tab.until("document.querySelector('#verdict').textContent.startsWith('Accepted')"))
        for text, line, has in ((WIDE, "6", "stack"), (MISSPELT, "3", "sway")):
            tab.type(text)
            wrong.unless(f"editor: line {line} is rejected", tab.until(f"document.querySelector('#lines b')?.textContent === '{line}'"))
            wrong.unless(f"editor: the explanation of line {line}", has in tab.text("#under"))
            place = tab.ask("document.querySelector('#under').getBoundingClientRect().top - document.querySelector('#lines b').getBoundingClientRect().bottom")
            wrong.unless("editor: it is under its line", -3 <= place <= 6)
            tab.until("!document.querySelector('#fault').hidden")
        wrong.look(tab, "a rejected program")
        tab.type(WIDE)
        wrong.unless("editor: a help can be applied", tab.until("!document.querySelector('#apply').hidden"))
        tab.click("#apply")
        wrong.unless("editor: the help is right", tab.until("document.querySelector('#verdict').textContent.startsWith('Accepted')"))
        tab.type(MASKED)
        wrong.unless("editor: it is accepted again", tab.until("document.querySelector('#verdict').textContent.startsWith('Accepted') && document.querySelector('#fault').hidden"))
        wrong.unless("editor: the typed text stays", tab.ask("document.querySelector('#program').value"), MASKED)
        wrong.add(*messages(tab))


def compared(browser, address, wrong):
    """Two campaigns next to each other: of three generals the oral one is broken, and the signed one is not."""
    with Led(browser, address) as tab:
        tab.choose("#story", "three_generals")
        tab.choose("#compare", "signed")
        tab.until("document.querySelectorAll('.pane').length === 2")
        tab.to_the_end()
        found = tab.all(".pane .outcome", "one.classList.contains('broken')")
        wrong.unless("compare: outcomes", found, [True, False])
        wrong.look(tab, "two campaigns")
        wrong.add(*messages(tab))


def explored(browser, address, wrong):
    """All orders of a campaign, and one of them stepped through."""
    with Led(browser, address) as tab:
        tab.choose("#story", "collusion")
        tab.ask("document.querySelector('#orders-of-accesses').open = true")
        tab.click("#explore")
        tab.until("document.querySelectorAll('#outcomes li').length > 0")
        wrong.unless("all orders", tab.text("#explored"), "There are 8 orders of the accesses to the board, with 2 outcomes.")
        tab.click("#outcomes li:last-child button")
        tab.settle()
        tab.until("!document.querySelector('#order').hidden")
        tab.to_the_end()
        wrong.unless("an order's decisions", "".join(tab.decisions().values()), "111011")
        wrong.look(tab, "all orders")
        tab.click("#punctual")
        tab.settle()
        tab.to_the_end()
        wrong.unless("decisions without it", "".join(tab.decisions().values()), "000000")
        wrong.add(*messages(tab))


def broken(browser, address, wrong):
    """Attempts are counted within the bound, and beyond it the smallest break is found and played."""
    with Led(browser, address) as tab:
        tab.choose("#story", "traitor_lieutenant")
        tab.ask("document.querySelector('#breaking').open = true")
        wrong.unless("break it: the theorem", "all loyal lieutenants decide alike" in tab.text("#promise"))
        tab.click("#try")
        names = tab.all(".card select option", "one.value")
        for name in [one for one in names if one][:3]:
            tab.choose(".card select", name)
        wrong.unless("break it: attempts", tab.until("document.querySelector('#attempts').textContent.startsWith('3 attempts. None')"))
        tab.choose("#story", "three_generals")
        if not tab.ask("document.querySelector('#search').hidden"):
            tab.click("#search")
            wrong.unless("break it: the smallest break", tab.until("document.querySelector('#found button')"))
            wrong.look(tab, "a break")
            tab.click("#found button")
            tab.settle()
            tab.to_the_end()
            wrong.unless("break it: it is broken", tab.ask("document.querySelector('#said').classList.contains('broken')"))
        wrong.add(*messages(tab))


def by_keys(browser, address, wrong):
    """The first broken campaign, with keys only."""
    with Led(browser, address) as tab:
        tab.ask("document.body.focus()")
        reach(tab, "General 2: loyal", wrong)
        tab.key("Enter")
        tab.settle()
        wrong.unless("by keys: a traitor", tab.ask("document.activeElement.getAttribute('aria-label')"), "General 2: traitor")
        for _ in range(2):
            tab.key("ArrowRight")
        tab.key("ArrowLeft")
        wrong.unless("by keys: back", len(tab.messages()), 2)
        tab.key("ArrowRight")
        tab.key("ArrowRight")
        wrong.unless("by keys: broken", tab.text("#said").startswith("Broken"))
        reach(tab, "General 1, lieutenant, loyal", wrong)
        tab.key("Enter")
        wrong.unless("by keys: why", tab.until("document.querySelector('.why li')"))
        reach(tab, "Round 2: general 2 sends general 1 the order 0, a lie", wrong, "ArrowDown")
        tab.key("Enter")
        wrong.unless("by keys: where it came from", "a lie" in tab.text(".detail"))
        stops = tab.ask("[...document.querySelectorAll('.message[tabindex=\"0\"]')].length")
        wrong.unless("by keys: one stop for each round", stops <= 2)
        wrong.add(*messages(tab))


def reach(tab, name, wrong, also=None):
    """Presses Tab (and another key in between) until something is reached, which must be seen."""
    for _ in range(120):
        tab.key("Tab")
        for key in (also,) if also else ():
            if tab.ask("document.activeElement.getAttribute('aria-label')") != name:
                tab.key(key)
        if tab.ask("document.activeElement.getAttribute('aria-label')") == name:
            outline = tab.ask("(() => { const style = getComputedStyle(document.activeElement); return style.outlineStyle !== 'none' && parseFloat(style.outlineWidth) >= 2; })()")
            return wrong.unless(f"by keys: {name} is marked", outline)
    return wrong.add(f"by keys: {name} is not reached")


def strange_links(browser, address, wrong):
    """Damaged links give a new campaign, and #predict an exercise."""
    for fragment in ("x", "%00", "eyJ9", "A" * 5000, "predict,zz", "%F0%9F", "a b"):
        with Led(browser, f"{address}#{fragment}") as tab:
            wrong.unless(f"the link {fragment[:9]}: generals", len(tab.all("#generals button", "1")), 3)
            wrong.unless(f"the link {fragment[:9]}: a fault", tab.until("!document.querySelector('#fault').hidden"))
    with Led(browser, f"{address}#predict") as tab:
        tab.to_the_end()
        wrong.unless("#predict", set(tab.decisions().values()), {"?"})
    for kind in ("story", "table", "exercise"):
        with Led(browser, f"{address}#{kind}=nothing") as tab:
            wrong.unless(f"the link to {kind} nothing: a fault", tab.until(f"document.querySelector('#fault').textContent.includes('There is no {kind} nothing')"))


def lessons(browser, address, wrong):
    """Each link of the lessons opens the campaign or table that it names, with the decisions hidden."""
    for fragment in sorted(set(re.findall(LINKS, content_of("docs", "CAMPAIGNS.md")))):
        kind, name = fragment.lstrip("#").split("=")
        with Led(browser, f"{address}{fragment}") as tab:
            wrong.unless(f"{fragment}: no fault", tab.ask("document.querySelector('#fault').hidden"))
            if kind == "table":
                a_table(tab, fragment, os.path.join(TOP, "examples", f"{name}.table"), wrong)
            else:
                wrong.unless(f"{fragment}: its kind", kind, "predict,story")
                a_story(tab, fragment, name, wrong)
            wrong.add(*(f"{fragment}: {line}" for line in messages(tab)))
            if name in ("traitor_lieutenant", "collusion_twice"):
                wrong.look(tab, f"the lesson {name}{' as a table' if kind == 'table' else ''}")


def a_story(tab, fragment, name, wrong):
    """A story is stepped through. Its decisions and its text are hidden until they are asked for."""
    wrong.unless(f"{fragment}: the story", tab.ask("document.querySelector('#story').value"), name)
    known = stories()
    base = max((one for one in known if name == one or name.startswith(f"{one}_")), key=len)
    schedule = [] if name == base else ["--schedule", os.path.join(TOP, "examples", f"{name}.schedule")]
    tab.to_the_end()
    wrong.unless(f"{fragment}: hidden decisions", set(tab.decisions().values()), {"?"})
    tab.ask("document.querySelector('.held').open = true")
    count = tab.ask("document.querySelectorAll('#generals button').length") - 1
    wrong.unless(f"{fragment}: what each lieutenant holds", tab.until(f"document.querySelectorAll('.held section li').length >= {count} && document.querySelectorAll('.held section').length === {count}"))
    wrong.unless(f"{fragment}: the hidden story", tab.ask("document.querySelector('#told').checkVisibility()"), False)
    tab.click("#reveal")
    decided(tab, fragment, chronicle_of(known[base], *schedule), wrong)
    wrong.unless(f"{fragment}: the story after it", tab.ask("document.querySelector('#told').checkVisibility()"))


def a_table(tab, fragment, path, wrong):
    """A table is decided as the program decides it, when it is asked for, and a tree is drawn of it."""
    wrong.unless(f"{fragment}: the table", tab.until(f"document.querySelector('#table').value === {json.dumps(content_of(path))}"))
    wrong.unless(f"{fragment}: hidden decisions", tab.until("document.querySelector('#decided').textContent.startsWith('The table is complete')"))
    tab.click("#decide")
    wrong.unless(f"{fragment}: its decisions", tab.until(f"document.querySelector('#decided').textContent === {json.dumps(answer('book', '--explain', path))}"))
    tab.click("#liars button:last-child")
    wrong.unless(f"{fragment}: a traitor", tab.until("/^IC2 /m.test(document.querySelector('#decided').textContent)"))
    tab.choose("#lieutenant", "1")
    wrong.unless(f"{fragment}: a tree", tab.until("document.querySelector('#drawn img')?.naturalWidth > 0"))
    tab.click("#leave")
    wrong.unless(f"{fragment}: the campaign again", tab.ask("document.querySelector('.heads').checkVisibility() && !document.querySelector('#decide').checkVisibility()"))
    tab.choose("#stored", os.path.basename(path)[: -len(".table")])
    wrong.unless(f"{fragment}: from the list", tab.ask("document.querySelector('#decide').checkVisibility() && !document.querySelector('.heads').checkVisibility()"))


def in_a_grid(browser, address, wrong):
    """Seven generals in the grid: the messages are the chronicle's."""
    chronicle = chronicle_of(stories()["collusion"])
    with Led(browser, address) as tab:
        tab.choose("#story", "collusion")
        tab.choose("#view", "grid")
        tab.to_the_end()
        wrong.unless("the grid: its messages", tab.messages(), chronicle.spoken(len(chronicle.rounds)))
        decided(tab, "the grid", chronicle, wrong)
        tab.click(".grid .message")
        wrong.unless("the grid: where a message came from", tab.ask("document.querySelectorAll('.grid .lit').length > 0"))
        wrong.look(tab, "a grid")
        wrong.add(*messages(tab))


def refuted(browser, address, wrong):
    """With too few generals the page shows messages that break each rule, with their traitors."""
    for name, rule in (("three_generals", ()), ("three_generals_median", ("--rule", "median"))):
        with Led(browser, address) as tab:
            tab.choose("#story", name)
            tab.ask("document.querySelector('#breaking').open = true")
            tab.click("#refute")
            table = answer("refute", *rule, "3", "1", "0")
            wrong.unless(f"refute {name}: the table", tab.until(f"document.querySelector('#table').value === {json.dumps(table)}"))
            tab.click("#decide")
            wrong.unless(f"refute {name}: it breaks the rule", tab.until("/^IC[12] no/m.test(document.querySelector('#decided').textContent)"))
            wrong.unless(f"refute {name}: its traitors", len(tab.all("#liars [aria-pressed=true]", "1")), 1)
            wrong.look(tab, f"messages that break {name}")
            wrong.add(*messages(tab))


def solved(browser, address, wrong):
    """The page says when an exercise is solved, and how many of its answers were found."""
    with Led(browser, f"{address}#exercise=break_three") as tab:
        text = content_of("examples", "exercises", "break_three.table")
        tab.click("#decide")
        tab.type(text.replace("?", "0"), "#table")
        ends(tab, "break_three", "1 of 2 answers found.", wrong)
        tab.type(re.sub("1$", "0", text, flags=re.M).replace("commander 0", "commander 0 rule median").replace("?", "1"), "#table")
        ends(tab, "break_three", "Solved.", wrong)
        wrong.look(tab, "a solved exercise")
    with Led(browser, f"{address}#exercise=choose") as tab:
        for strategy, end in (("silent", "1 of 2 answers found."), ("splits", "Solved.")):
            for general in (4, 5):
                tab.choose(f"#strategy-{general}", strategy)
            tab.to_the_end()
            ends(tab, f"choose, {strategy}", end, wrong)
    with Led(browser, f"{address}#exercise=mend") as tab:
        ends(tab, "mend", "Not solved yet.", wrong)
        tab.type(content_of("examples", "exercises", "mend.asm").replace("        mov r2", "        and r1, 7\n        mov r2", 1))
        ends(tab, "mend", "Solved.", wrong)
    with Led(browser, f"{address}#exercise=altered") as tab:
        lines = content_of("examples", "exercises", "altered.chronicle").splitlines(keepends=True)
        lines[15] = lines[15].replace("1 0\n", "1 1\n")
        tab.type("".join(lines), "#chronicle")
        tab.click("#audit")
        ends(tab, "altered", "Solved.", wrong)
    for name in ("one_retreats", "tip_the_scales", "late"):
        answers_file(browser, address, name, wrong)


def answers_file(browser, address, name, wrong):
    """An answer in examples/exercises/answers, whose programs are typed, solves its exercise."""
    programs = re.findall(r'^general = (\d+)\nasm = """\n(.*?)"""', content_of("examples", "exercises", "answers", f"{name}.toml"), re.S | re.M)
    with Led(browser, f"{address}#exercise={name}") as tab:
        general, text = programs[-1]
        tab.click(f"[data-key='edit {general}']")
        tab.type(text)
        tab.until("document.querySelector('#verdict').textContent.startsWith('Accepted')")
        time.sleep(0.5)
        tab.settle()
        tab.to_the_end()
        ends(tab, name, "Solved.", wrong)


def ends(tab, name, end, wrong):
    wrong.unless(f"the exercise {name}: {end}", tab.until(f"document.querySelector('#task-end').textContent === {json.dumps(end)}"))


def exercises(browser, address, wrong):
    """Each exercise's link opens its file, and the program answers what it contains."""
    folder = os.path.join(TOP, "examples", "exercises")
    for file in sorted(one for one in os.listdir(folder) if os.path.isfile(os.path.join(folder, one)) and not one.endswith(".json")):
        name, ending = os.path.splitext(file)
        with open(os.path.join(folder, file), encoding="utf-8") as opened:
            text = opened.read()
        with Led(browser, f"{address}#exercise={name}") as tab:
            wrong.unless(f"the exercise {name}: its task", tab.ask("document.querySelector('#task-text').checkVisibility()"))
            wrong.unless(f"the exercise {name}: no fault", tab.ask("document.querySelector('#fault').hidden") or ending == ".asm")
            if ending == ".toml":
                numbers = [re.search(rf"^{key} = (\d+)", text, re.M)[1] for key in ("generals", "bound", "commander", "order")]
                wrong.unless(f"the exercise {name}: numbers", tab.ask("['n', 'm', 'c', 'o'].map((id) => document.querySelector(`#${id}`).value)"), numbers)
                wrong.unless(f"the exercise {name}: traitors", len(tab.all("#generals [aria-pressed=true]", "1")) > 0 or "[[traitor]]" not in text)
            elif ending == ".asm":
                wrong.unless(f"the exercise {name}: its program", tab.until("document.querySelector('#verdict').classList.contains('refused')"))
            elif ending == ".table":
                wrong.unless(f"the exercise {name}: its table", tab.until("/decision|refused/.test(document.querySelector('#decided').textContent)"))
            else:
                tab.click("#audit")
                wrong.unless(f"the exercise {name}: its chronicle", tab.until("document.querySelector('#audited').textContent.startsWith('refused X3')"))
            wrong.add(*messages(tab))
            if ending in (".table", ".chronicle"):
                wrong.look(tab, f"the exercise {name}")


def lost(browser, wrong):
    """A server that goes away leaves the page usable, with what was typed, and is asked again."""
    with served() as address:
        tab = Led(browser, address)
        tab.__enter__()
        tab.click("#generals button:nth-child(3)")
        tab.settle()
        tab.click(".card button")
        tab.until("document.querySelector('#verdict').textContent.startsWith('Accepted')")
    tab.type(MASKED)
    wrong.unless("lost: it says so", tab.until("document.querySelector('#fault').textContent.includes('does not answer')"))
    wrong.unless("lost: what was typed", tab.ask("document.querySelector('#program').value"), MASKED)
    tab.click("#next")
    wrong.unless("lost: the last campaign can be stepped through", len(tab.messages()), 2)
    with served(int(address.rsplit(":", 1)[1].strip("/"))):
        tab.click("#again")
        wrong.unless("lost: it comes back", tab.until("document.querySelector('#fault').hidden && document.querySelector('.pane:not(.failed) .heads')"))
        tab.to_the_end()
        wrong.unless("lost: decisions", len(tab.decisions()), 2)
        wrong.add(*(line for line in messages(tab, "ERR_CONNECTION", "Failed to load resource")))
        tab.__exit__()


def on_paper(browser, address, wrong):
    """The printed campaign has its rounds and decisions, and no controls."""
    with Led(browser, address) as tab:
        tab.choose("#story", "traitor_commander")
        tab.to_the_end()
        tab.show(718, 900, media="print")
        time.sleep(0.3)
        wrong.add(*(f"on paper: {line}" for line in sum(wrong.asked(tab, "overlaps", "cuts", "faint"), [])))
        seen = tab.ask("['#setup section', '#controls', '.round', '.decision'].map((one) => document.querySelector(one).checkVisibility())")
        wrong.unless("on paper: what is seen", seen, [False, False, True, True])


def judge(browser, asked, questions, keep):
    """What is wrong with the page, and at how many states it was looked."""
    wrong = Wrong(lambda tab, *words: (tab.ask(questions), asked(tab, *words))[1], keep)
    with served() as address:
        with Led(browser, address) as tab:
            wrong.look(tab, "the first page")
            tab.click("#large")
            time.sleep(0.3)
            wrong.look(tab, "large type")
        for place, (name, text) in enumerate(stories().items()):
            story(browser, address, name, text, wrong, place)
        for part in (edited, compared, explored, broken, refuted, in_a_grid, by_keys, strange_links, lessons, exercises, solved, on_paper):
            part(browser, address, wrong)
    lost(browser, wrong)
    return wrong.lines, wrong.looked
