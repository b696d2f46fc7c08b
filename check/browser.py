"""A headless Chromium, spoken to through two pipes."""
import json
import os
import select
import shutil
import subprocess
import tempfile

# How long the browser may take to say something, in seconds.
PATIENCE = 120
NAMES = ["chromium", "chromium-browser", "google-chrome", "google-chrome-stable"]


def found():
    """The Chromium that there is, or None."""
    return next((path for path in map(shutil.which, NAMES) if path), None)


def started():
    """A Browser; or None, behind a line that says why."""
    if not found():
        print("there is no Chromium, so no page was opened: skipped")
        return None
    try:
        return Browser()
    except (EOFError, OSError) as fault:
        print(f"Chromium does not start ({fault}), so no page was opened: skipped")
        return None


class Browser:
    """A Chromium with one page. What the page says on its console is kept, and what it would load from elsewhere."""

    def __init__(self):
        self.folder = tempfile.TemporaryDirectory(prefix="picture-browser-", ignore_cleanup_errors=True)
        ours, self.write_end = os.pipe()
        self.read_end, theirs = os.pipe()
        words = [found(), "--headless=new", "--no-sandbox", "--disable-gpu", "--no-first-run", "--disable-extensions", "--hide-scrollbars",
                 "--disable-dev-shm-usage", "--disable-background-networking", "--disable-component-update", f"--user-data-dir={self.folder.name}",
                 "--remote-debugging-pipe", "about:blank"]

        def place():
            for end, number in ((os.dup(ours), 3), (os.dup(theirs), 4)):
                os.dup2(end, number, inheritable=True)

        self.program = subprocess.Popen(words, close_fds=False, preexec_fn=place, stdout=subprocess.DEVNULL, stderr=subprocess.DEVNULL)
        os.close(ours)
        os.close(theirs)
        self.left, self.number, self.session, self.said, self.loaded = b"", 0, None, [], []
        try:
            self.attach()
        except (EOFError, OSError):
            self.end()
            raise

    def attach(self):
        """Has the page tell what goes on."""
        target = next((it for it in self.call("Target.getTargets")["targetInfos"] if it["type"] == "page"), None)
        if not target:
            raise EOFError("Chromium has no page")
        self.session = self.call("Target.attachToTarget", targetId=target["targetId"], flatten=True)["sessionId"]
        for domain in ("Page", "Runtime", "Log", "Network"):
            self.call(f"{domain}.enable")

    def message(self):
        """The next message."""
        while b"\0" not in self.left:
            if not select.select([self.read_end], [], [], PATIENCE)[0]:
                raise EOFError("Chromium says nothing")
            more = os.read(self.read_end, 1 << 20)
            if not more:
                raise EOFError("Chromium has ended")
            self.left += more
        text, self.left = self.left.split(b"\0", 1)
        return json.loads(text)

    def note(self, it):
        """Keeps what the page says and loads."""
        method, params = it.get("method"), it.get("params", {})
        if method == "Runtime.consoleAPICalled":
            self.said.append(" ".join(str(each.get("value", each.get("description"))) for each in params["args"]))
        elif method == "Runtime.exceptionThrown":
            self.said.append(params["exceptionDetails"].get("exception", {}).get("description", params["exceptionDetails"]["text"]))
        elif method == "Log.entryAdded":
            self.said.append(params["entry"]["text"])
        elif method == "Network.requestWillBeSent":
            self.loaded.append(params["request"]["url"])
        elif method == "Page.javascriptDialogOpening":
            self.said.append(f"a dialog: {params['message']}")

    def call(self, method, **params):
        """What a method answers."""
        self.number += 1
        text = {"id": self.number, "method": method, "params": params, **({"sessionId": self.session} if self.session else {})}
        os.write(self.write_end, json.dumps(text).encode() + b"\0")
        while True:
            it = self.message()
            if it.get("id") == self.number:
                if "error" in it:
                    raise RuntimeError(f"{method}: {it['error']['message']}")
                return it["result"]
            self.note(it)

    def value(self, script):
        """The value of a script; what it promises is waited for."""
        answer = self.call("Runtime.evaluate", expression=script, awaitPromise=True, returnByValue=True)
        if "exceptionDetails" in answer:
            raise RuntimeError(answer["exceptionDetails"].get("exception", {}).get("description", "the script fails"))
        return answer["result"].get("value")

    def size(self, width, height, dark=False):
        """Gives the page a size, and a theme."""
        self.call("Emulation.setDeviceMetricsOverride", width=width, height=height, deviceScaleFactor=1, mobile=width < 600)
        self.call("Emulation.setEmulatedMedia", media="", features=[{"name": "prefers-color-scheme", "value": "dark" if dark else "light"}])

    def open(self, path):
        """Opens a page, and waits until it is ready or says that it cannot be shown."""
        self.said, self.loaded = [], []
        self.call("Page.navigate", url=f"file://{path}")
        self.value("""new Promise((done) => {
            const look = () => document.documentElement?.dataset.ready || (document.getElementById("fault") && !document.getElementById("fault").hidden)
                ? requestAnimationFrame(() => done(1)) : setTimeout(look, 5);
            look(); })""")

    def key(self, name):
        """Presses a key."""
        shift = 8 if name.startswith("Shift+") else 0
        name = name.removeprefix("Shift+")
        for kind in ("keyDown", "keyUp"):
            self.call("Input.dispatchKeyEvent", type=kind, key=name, code=name, modifiers=shift)
        self.value("new Promise((done) => requestAnimationFrame(() => requestAnimationFrame(done))).then(() => 0)")

    def close(self):
        """Ends it."""
        try:
            self.session = None
            self.call("Browser.close")
        except (EOFError, OSError, RuntimeError):
            pass
        self.end()

    def end(self):
        """Ends the program, and forgets what it has kept."""
        try:
            self.program.wait(10)
        except subprocess.TimeoutExpired:
            self.program.kill()
            self.program.wait()
        os.close(self.read_end)
        os.close(self.write_end)
        self.folder.cleanup()
