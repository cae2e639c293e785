"""A headless Chromium, driven by its own protocol over two pipes: messages of JSON, each ended by a zero byte."""
import base64
import fcntl
import json
import os
import select
import shutil
import signal
import time

NAMES = ("chromium", "chromium-browser", "google-chrome")
PATIENCE = 60  # seconds for an answer

OPTIONS = ["--headless=new", "--remote-debugging-pipe", "--disable-gpu", "--disable-dev-shm-usage", "--no-first-run",
           "--disable-extensions", "--disable-background-networking", "--disable-component-update", "--disable-sync",
           "--disable-default-apps", "--hide-scrollbars", "--force-color-profile=srgb", "--window-size=1366,900"]


def find():
    """The program, or None."""
    return next((path for path in map(shutil.which, NAMES) if path), None)


class Failed(Exception):
    pass


def high(fd):
    """The same at a higher number, so that 3 and 4 are free in the child."""
    moved = fcntl.fcntl(fd, fcntl.F_DUPFD_CLOEXEC, 10)
    os.close(fd)
    return moved


class Chromium:
    def __init__(self, folder):
        """Starts it with a profile of its own in the folder."""
        self.number, self.rest, self.messages, self.answers, self.session = 0, b"", [], {}, None
        child_reads, self.writes = map(high, os.pipe())
        self.reads, child_writes = map(high, os.pipe())
        self.log = os.path.join(folder, "chromium.log")
        options = OPTIONS + ["--no-sandbox"] * (os.geteuid() == 0) + ["--user-data-dir=" + os.path.join(folder, "profile"), "about:blank"]
        actions = [(os.POSIX_SPAWN_DUP2, child_reads, 3), (os.POSIX_SPAWN_DUP2, child_writes, 4),
                   (os.POSIX_SPAWN_OPEN, 0, os.devnull, os.O_RDONLY, 0),
                   (os.POSIX_SPAWN_OPEN, 1, self.log, os.O_WRONLY | os.O_CREAT, 0o600), (os.POSIX_SPAWN_DUP2, 1, 2)]
        self.pid = os.posix_spawn(find(), ["chromium"] + options, {**os.environ, "HOME": folder}, file_actions=actions, setpgroup=0)
        os.close(child_reads)
        os.close(child_writes)
        try:
            target = self.call("Target.createTarget", url="about:blank")["targetId"]
            self.session = self.call("Target.attachToTarget", targetId=target, flatten=True)["sessionId"]
            for domain in ("Page", "Runtime", "Log", "DOM"):
                self.call(domain + ".enable")
        except BaseException:
            self.kill()
            raise

    # ---- messages

    def send(self, method, **params):
        self.number += 1
        message = {"id": self.number, "method": method, "params": params}
        if self.session and not method.startswith("Browser."):
            message["sessionId"] = self.session
        left = json.dumps(message).encode() + b"\0"
        while left:
            left = left[os.write(self.writes, left):]
        return self.number

    def receive(self, until):
        """Reads what has come until a moment, at least what is there; whether anything has."""
        if not select.select([self.reads], [], [], max(0, until - time.monotonic()))[0]:
            return False
        read = os.read(self.reads, 1 << 20)
        if not read:
            raise Failed("Chromium has ended: " + self.complaints())
        *whole, self.rest = (self.rest + read).split(b"\0") if b"\0" in read else (self.rest + read,)
        for message in map(json.loads, whole):
            if "id" in message:
                self.answers[message["id"]] = message
            else:
                self.notice(message["method"], message["params"])
        return True

    def notice(self, method, params):
        """What the browser tells by itself. A dialog would hold up all else, so it is closed at once."""
        self.messages.append((method, params))
        if method == "Page.javascriptDialogOpening":
            self.send("Page.handleJavaScriptDialog", accept=False)

    def call(self, method, **params):
        number, until = self.send(method, **params), time.monotonic() + PATIENCE
        while number not in self.answers:
            if not self.receive(until) and time.monotonic() > until:
                raise Failed(f"no answer to {method} in {PATIENCE} seconds")
        answer = self.answers.pop(number)
        if "error" in answer:
            raise Failed(f"{method}: {answer['error']['message']}")
        return answer["result"]

    def wait_for(self, method, fits=lambda params: True):
        """The first message of this kind that fits, which is taken away."""
        until = time.monotonic() + PATIENCE
        while True:
            for i, (name, params) in enumerate(self.messages):
                if name == method and fits(params):
                    del self.messages[i]
                    return params
            if not self.receive(until) and time.monotonic() > until:
                raise Failed(f"no {method} in {PATIENCE} seconds")

    def take(self, *methods):
        """All messages of these kinds so far, which are taken away."""
        while self.receive(0):
            pass
        taken = [(name, params) for name, params in self.messages if name in methods]
        self.messages = [message for message in self.messages if message[0] not in methods]
        return taken

    # ---- the page

    def run(self, script):
        """The value of a script, awaited if it is a promise."""
        result = self.call("Runtime.evaluate", expression=script, awaitPromise=True, returnByValue=True)
        if "exceptionDetails" in result:
            details = result["exceptionDetails"]
            raise Failed(f"{script[:200]}: {details.get('exception', {}).get('description') or details['text']}")
        return result["result"].get("value")

    def ask(self, name, *arguments):
        """The value of a function of the page."""
        return self.run(f"{name}({', '.join(json.dumps(a) for a in arguments)})")

    def load(self, doing):
        """Does something that loads a page, and waits for it."""
        self.take("Page.loadEventFired")
        doing()
        self.wait_for("Page.loadEventFired")

    def open(self, url):
        self.load(lambda: self.call("Page.navigate", url=url))

    def middle(self, selector):
        """Where the middle of the element is, which is brought into sight."""
        return self.run(f"""(() => {{
            const element = document.querySelector({json.dumps(selector)});
            element.scrollIntoView({{ block: "nearest" }});
            const box = element.getBoundingClientRect();
            return [box.left + box.width / 2, box.top + box.height / 2];
        }})()""")

    def click(self, selector):
        """A click with the mouse, in the middle of the element, once it stays where it is."""
        place, before = self.middle(selector), None
        while place != before:
            time.sleep(0.05)
            place, before = self.middle(selector), place
        for kind in ("mousePressed", "mouseReleased"):
            self.call("Input.dispatchMouseEvent", type=kind, x=place[0], y=place[1], button="left", clickCount=1)

    def key(self, name, code, **more):
        """A key, pressed and let go; with `text` it also types that."""
        down = "keyDown" if "text" in more else "rawKeyDown"
        for kind in (down, "keyUp"):
            self.call("Input.dispatchKeyEvent", type=kind, key=name, code=name, windowsVirtualKeyCode=code, **more)

    def picture(self, path):
        with open(path, "wb") as png:
            png.write(base64.b64decode(self.call("Page.captureScreenshot", format="png")["data"]))

    # ---- the end

    def complaints(self):
        with open(self.log, errors="replace") as log:
            return log.read()[-2000:]

    def kill(self):
        """Ends it and all that it has started."""
        for end in (self.writes, self.reads):
            os.close(end)
        try:
            os.killpg(self.pid, signal.SIGKILL)
        except ProcessLookupError:
            pass
        os.waitpid(self.pid, 0)
