"""A headless Chromium, spoken to over a pipe by its DevTools protocol, and the pictures that it takes of a page."""
import base64
import json
import os
import select
import shutil
import subprocess
import tempfile
import time

FLAGS = (
    "--headless=new", "--no-sandbox", "--disable-gpu", "--no-first-run", "--disable-extensions", "--disable-background-networking",
    "--disable-component-update", "--disable-dev-shm-usage", "--hide-scrollbars", "--remote-debugging-pipe",
)
NAMES = ("chromium", "chromium-browser", "google-chrome", "chrome")
PATIENCE = 30


def found():
    """The command of a browser. None if there is none."""
    return next((path for path in map(shutil.which, NAMES) if path), None)


def installed():
    """The command of a browser, which Debian's package brings if there is none and it can."""
    if found() is None and shutil.which("apt-get") and os.geteuid() == 0:
        for words in (("update",), ("install", "-y", "--no-install-recommends", "chromium")):
            try:
                subprocess.run(["apt-get", "-qq", *words], env={**os.environ, "DEBIAN_FRONTEND": "noninteractive"}, stdin=subprocess.DEVNULL, capture_output=True, timeout=300)
            except (OSError, subprocess.TimeoutExpired):
                break
    return found()


class BrowserFault(Exception):
    """What the browser was asked for did not come, or came as an error."""


class Browser:
    """A browser without a window. It ends with the block that it was begun by."""

    def __init__(self, command):
        self.command, self.number, self.pending, self.events, self.own = command, 0, b"", [], None

    def __enter__(self):
        self.folder = tempfile.TemporaryDirectory(ignore_cleanup_errors=True)
        ours_in, theirs_out = os.pipe()
        theirs_in, ours_out = os.pipe()

        def pipes():
            """The browser reads at 3 and writes at 4."""
            far = [os.dup2(end, 60 + at) for at, end in enumerate((theirs_in, theirs_out))]
            for at, end in enumerate(far):
                os.dup2(end, 3 + at)

        self.process = subprocess.Popen(
            [self.command, *FLAGS, f"--user-data-dir={self.folder.name}", "about:blank"], preexec_fn=pipes, close_fds=False, start_new_session=True,
            stdin=subprocess.DEVNULL, stdout=subprocess.DEVNULL, stderr=subprocess.DEVNULL,
        )
        os.close(theirs_in)
        os.close(theirs_out)
        self.reads, self.writes = ours_in, ours_out
        return self

    def __exit__(self, *_):
        try:
            self.asks("Browser.close")
            self.process.wait(10)
        except (BrowserFault, OSError, subprocess.TimeoutExpired):
            pass
        # Whatever of it still runs is of the session that it was begun with.
        try:
            os.killpg(self.process.pid, 9)
        except ProcessLookupError:
            pass
        self.process.wait()
        os.close(self.reads)
        os.close(self.writes)
        self.folder.cleanup()

    def takes(self, until):
        """The next message of the browser. None if none came until then."""
        while b"\0" not in self.pending:
            left = until - time.monotonic()
            if left <= 0 or not select.select([self.reads], [], [], left)[0]:
                return None
            part = os.read(self.reads, 1 << 20)
            if not part:
                raise BrowserFault("the browser has ended")
            self.pending += part
        message, _, self.pending = self.pending.partition(b"\0")
        return json.loads(message)

    def asks(self, method, session=None, **parameters):
        """What it answers to a call of the protocol. Events that come before are kept."""
        self.number += 1
        own = {"id": self.number, "method": method, "params": parameters} | ({"sessionId": session} if session else {})
        text = json.dumps(own).encode() + b"\0"
        while text:
            text = text[os.write(self.writes, text) :]
        until = time.monotonic() + PATIENCE
        while (message := self.takes(until)) is not None:
            if message.get("id") == self.number:
                if "error" in message:
                    raise BrowserFault(f"{method}: {message['error']}")
                return message["result"]
            self.events.append(message)
        raise BrowserFault(f"{method}: no answer")

    def page(self, width, height, **options):
        """A new page of this size."""
        return Page(self, width, height, **options)

    def decoder(self):
        """An empty page, one for all pictures that are decoded."""
        self.own = self.own or self.page(100, 100)
        return self.own


class Page:
    """A page of a browser, which notes what it asks the network for and what its script throws."""

    def __init__(self, browser, width, height, ratio=1, is_mobile=False, is_still=True):
        self.browser = browser
        self.target = browser.asks("Target.createTarget", url="about:blank")["targetId"]
        self.session = browser.asks("Target.attachToTarget", targetId=self.target, flatten=True)["sessionId"]
        for domain in ("Page", "Runtime", "Network"):
            self.asks(f"{domain}.enable")
        self.asks("Emulation.setDeviceMetricsOverride", width=width, height=height, deviceScaleFactor=ratio, mobile=is_mobile)
        if is_mobile:
            self.asks("Emulation.setTouchEmulationEnabled", enabled=True)
        self.keeps_still(is_still)

    def asks(self, method, **parameters):
        return self.browser.asks(method, self.session, **parameters)

    def keeps_still(self, is_still):
        """Whether its reader asks for no motion."""
        self.asks("Emulation.setEmulatedMedia", features=[{"name": "prefers-reduced-motion", "value": "reduce" if is_still else "no-preference"}])

    def opens(self, url):
        """Goes to an address, once somebody answers there, and waits until the page is read."""
        until = time.monotonic() + PATIENCE
        while fault := self.asks("Page.navigate", url=url).get("errorText"):
            if "CONNECTION_REFUSED" not in fault or time.monotonic() > until:
                raise BrowserFault(f"{url}: {fault}")
            time.sleep(0.05)
        self.waits(f"document.readyState === 'complete' && location.href === {json.dumps(url)}")

    def says(self, script):
        """The value of a script, once it is there."""
        answer = self.asks("Runtime.evaluate", expression=script, returnByValue=True, awaitPromise=True)
        if "exceptionDetails" in answer:
            raise BrowserFault(json.dumps(answer["exceptionDetails"])[:400])
        return answer["result"].get("value")

    def waits(self, script, patience=PATIENCE):
        """Waits until a script's value is true. Whether it was in that time."""
        until = time.monotonic() + patience
        while time.monotonic() < until:
            if self.says(script):
                return True
            time.sleep(0.02)
        return False

    def keys(self, text):
        """Presses the keys of these characters one after another, as a keyboard does; a line's end is Enter."""
        for key in text:
            name, text = ("Enter", "\r") if key == "\n" else (key, key)
            self.asks("Input.dispatchKeyEvent", type="keyDown", key=name, text=text)
            self.asks("Input.dispatchKeyEvent", type="keyUp", key=name)

    def place(self, selector):
        """The left upper corner of the first thing of this kind, its width and its height."""
        return self.says(f"(() => {{ const at = document.querySelector({json.dumps(selector)}).getBoundingClientRect(); return [at.x, at.y, at.width, at.height]; }})()")

    def middle(self, selector):
        x, y, width, height = self.place(selector)
        return {"x": x + width / 2, "y": y + height / 2}

    def clicks(self, selector):
        """A click of a mouse on the first thing of this kind."""
        for kind in ("mousePressed", "mouseReleased"):
            self.asks("Input.dispatchMouseEvent", type=kind, button="left", clickCount=1, **self.middle(selector))

    def touches(self, selector):
        """A finger on it."""
        self.asks("Input.dispatchTouchEvent", type="touchStart", touchPoints=[self.middle(selector)])
        self.asks("Input.dispatchTouchEvent", type="touchEnd", touchPoints=[])

    def events(self, method):
        """What it was told of by events of this kind."""
        self.says("0")
        return [event["params"] for event in self.browser.events if event.get("sessionId") == self.session and event["method"] == method]

    def picture(self, selector=None):
        """A PNG of what is seen of the page, or of the first thing of a kind in it. What is behind another page is not drawn."""
        self.asks("Page.bringToFront")
        clip = {"clip": dict(zip(("x", "y", "width", "height"), self.place(selector))) | {"scale": 1}} if selector else {}
        return base64.b64decode(self.asks("Page.captureScreenshot", format="png", **clip)["data"])

    def closes(self):
        self.browser.asks("Target.closeTarget", targetId=self.target)
