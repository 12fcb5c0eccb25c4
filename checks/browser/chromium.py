"""A browser without a window, led over a pipe by its remote debugging protocol: for checks/browser/run."""
import fcntl
import json
import os
import select
import shutil
import signal
import subprocess
import time

# How many seconds an answer of the browser may take.
PATIENCE = 120
FLAGS = ["--headless=new", "--remote-debugging-pipe", "--disable-gpu", "--disable-dev-shm-usage", "--no-first-run"]
FLAGS += ["--no-default-browser-check", "--disable-extensions", "--disable-background-networking", "--disable-component-update"]
FLAGS += ["--disable-sync", "--disable-default-apps", "--mute-audio", "--password-store=basic", "--force-color-profile=srgb"]


class Trouble(Exception):
    """The browser does not answer, or not to what it was asked."""


def command():
    """The browser's command, where there is one: chromium, or the one that CHROMIUM names."""
    return shutil.which(os.environ.get("CHROMIUM", "chromium"))


class Browser:
    """A browser with an empty profile, which ends with the `with` block."""

    def __init__(self, folder):
        self.folder, self.number, self.rest, self.events = folder, 0, b"", []

    def __enter__(self):
        ours, theirs = os.pipe(), os.pipe()  # (what it reads, what it writes)

        def lend():
            ends = [fcntl.fcntl(end, fcntl.F_DUPFD, 10) for end in (ours[0], theirs[1])]
            os.dup2(ends[0], 3)
            os.dup2(ends[1], 4)

        # (the sandbox does not start for the root user)
        flags = FLAGS + ["--no-sandbox"] * (os.geteuid() == 0) + [f"--user-data-dir={self.folder}", "about:blank"]
        how = {"stdin": subprocess.DEVNULL, "stdout": subprocess.DEVNULL, "stderr": subprocess.DEVNULL}
        self.ran = subprocess.Popen([command(), *flags], close_fds=False, preexec_fn=lend, start_new_session=True, **how)
        os.close(ours[0])
        os.close(theirs[1])
        self.writes, self.reads = ours[1], theirs[0]
        self.call("Browser.getVersion")
        return self

    def __exit__(self, *_):
        try:
            self.call("Browser.close")
        except (Trouble, OSError):
            pass
        os.close(self.writes)
        os.close(self.reads)
        try:
            self.ran.wait(20)
        except subprocess.TimeoutExpired:
            os.killpg(self.ran.pid, signal.SIGKILL)
            self.ran.wait()

    def message(self, until):
        """The next message: an answer or an event."""
        while b"\0" not in self.rest:
            ready, _, _ = select.select([self.reads], [], [], max(0, until - time.monotonic()))
            part = os.read(self.reads, 1 << 20) if ready else b""
            if not part:
                raise Trouble("the browser has ended" if ready else f"the browser gave no answer in {PATIENCE} seconds")
            self.rest += part
        line, self.rest = self.rest.split(b"\0", 1)
        return json.loads(line)

    def call(self, method, session=None, **words):
        """The answer to a command. Events that come before it are kept."""
        self.number += 1
        asked = {"id": self.number, "method": method, "params": words} | ({"sessionId": session} if session else {})
        sent = json.dumps(asked).encode() + b"\0"
        while sent:
            try:
                sent = sent[os.write(self.writes, sent) :]
            except BrokenPipeError:
                raise Trouble("the browser has ended") from None
        until = time.monotonic() + PATIENCE
        while True:
            told = self.message(until)
            if told.get("id") == self.number:
                if "error" in told:
                    raise Trouble(f"{method}: {told['error']['message']}")
                return told["result"]
            if "method" in told:
                self.events.append(told)

    def wait(self, is_there):
        """Until the events are such."""
        until = time.monotonic() + PATIENCE
        while not is_there():
            told = self.message(until)
            if "method" in told:
                self.events.append(told)


class Tab:
    """A tab with one file, and a world of its own in it for scripts that ask about the page."""

    def __init__(self, browser, address):
        self.browser, self.address = browser, address

    def __enter__(self):
        self.target = self.browser.call("Target.createTarget", url="about:blank")["targetId"]
        self.session = self.browser.call("Target.attachToTarget", targetId=self.target, flatten=True)["sessionId"]
        for part in ("Page", "Runtime", "Log", "Network", "Accessibility"):
            self.call(f"{part}.enable")
        self.browser.events = []
        opened = self.call("Page.navigate", url=self.address)
        if opened.get("errorText"):
            raise Trouble(f"{self.address}: {opened['errorText']}")
        self.browser.wait(self.is_loaded)
        self.world = self.call("Page.createIsolatedWorld", frameId=opened["frameId"], worldName="checks")["executionContextId"]
        return self

    def is_loaded(self):
        """Whether the file has been loaded, and not only the empty page before it."""
        came = [event for event in self.browser.events if event.get("sessionId") == self.session]
        for place, event in enumerate(came):
            if event["method"] == "Page.frameNavigated" and event["params"]["frame"]["url"] != "about:blank":
                return any(later["method"] == "Page.loadEventFired" for later in came[place:])
        return False

    def __exit__(self, *_):
        self.browser.call("Target.closeTarget", targetId=self.target)

    def call(self, method, **words):
        return self.browser.call(method, self.session, **words)

    def ask(self, script):
        """The value of a script, which the page's own policy does not touch."""
        told = self.call("Runtime.evaluate", expression=script, contextId=self.world, returnByValue=True)
        if "exceptionDetails" in told:
            raise Trouble(told["exceptionDetails"].get("exception", {}).get("description", "a script failed"))
        return told["result"].get("value")

    def show(self, width, height, scheme="light", media="screen"):
        """From now on: a window of this size, and these wishes for the colours."""
        self.call("Emulation.setDeviceMetricsOverride", width=width, height=height, deviceScaleFactor=1, mobile=False)
        wished = [{"name": "prefers-color-scheme", "value": scheme}]
        self.call("Emulation.setEmulatedMedia", media=media, features=wished)

    def press(self, key, code, number, text=""):
        words = {"key": key, "code": code, "windowsVirtualKeyCode": number, "nativeVirtualKeyCode": number}
        self.call("Input.dispatchKeyEvent", type="keyDown" if text else "rawKeyDown", **words, **({"text": text} if text else {}))
        self.call("Input.dispatchKeyEvent", type="keyUp", **words)

    def told(self, *methods):
        """The events of these kinds since the tab was opened."""
        return [event["params"] for event in self.browser.events if event.get("sessionId") == self.session and event["method"] in methods]
