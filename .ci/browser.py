"""A browser without a window, led by the DevTools protocol over two pipes. Needs Chromium, and nothing else."""
import base64
import json
import os
import select
import shutil
import signal
import subprocess
import tempfile
import time

NAMES = ("chromium", "chromium-browser", "google-chrome", "chrome")
WORDS = ["--headless=new", "--no-sandbox", "--disable-gpu", "--disable-dev-shm-usage", "--no-first-run", "--hide-scrollbars",
         "--disable-background-networking", "--disable-extensions", "--force-device-scale-factor=1",
         "--remote-debugging-pipe"]

# The texts of a page whose contrast is below 4.5, each with what it is.
CONTRAST = """(() => {
    const pen = document.createElement("canvas").getContext("2d", {willReadFrequently: true});
    const parts = (colour) => {
        pen.clearRect(0, 0, 1, 1);
        pen.fillStyle = colour;
        pen.fillRect(0, 0, 1, 1);
        return [...pen.getImageData(0, 0, 1, 1).data];
    };
    const light = (colour) => colour.slice(0, 3).map((it) => it / 255)
        .map((it) => it <= 0.04045 ? it / 12.92 : ((it + 0.055) / 1.055) ** 2.4)
        .reduce((sum, it, place) => sum + it * [0.2126, 0.7152, 0.0722][place], 0);
    const ground = (part) => {
        for (; part; part = part.parentElement) {
            const colour = parts(getComputedStyle(part).backgroundColor);
            if (colour[3] === 255) return colour;
        }
    };
    const poor = [], walker = document.createTreeWalker(document.body, NodeFilter.SHOW_TEXT);
    const compare = (what, ink, paper) => {
        const [low, high] = [light(ink), light(paper)].sort((one, other) => one - other);
        if ((high + 0.05) / (low + 0.05) < 4.5) poor.push(`${what}: ${ink} on ${paper}`);
    };
    for (let node = walker.nextNode(); node; node = walker.nextNode()) {
        const part = node.parentElement, style = getComputedStyle(part);
        if (!node.data.trim() || !part.getClientRects().length || part.disabled) continue;
        const box = part.closest(".telegram:not(.missing)")?.querySelector("rect");
        const ink = parts(part.closest("svg") ? style.fill : style.color);
        compare(node.data.trim().slice(0, 30), ink, box ? parts(getComputedStyle(box).fill) : ground(part));
    }
    const probe = document.createElement("p");
    document.body.append(probe);
    const named = (name) => { probe.style.color = `var(--${name})`; return parts(getComputedStyle(probe).color); };
    for (const phase of [0, 1, 2, 3, 4]) compare(`phase ${phase}`, named("on-phase"), named(`phase${phase}`));
    for (const name of ["ink", "muted"]) compare(name, named(name), named("paper"));
    probe.remove();
    return poor;
})()"""

def browser_path():
    """The path of a browser, or None."""
    return next((path for path in map(shutil.which, NAMES) if path), None)


class Browser:
    """One page of a browser, with all errors of its console."""

    def __init__(self, path, seconds=30):
        self.seconds = seconds
        self.errors, self.fetched, self.events = [], [], []
        self.number, self.rest, self.session = 0, b"", None
        self.folder = tempfile.TemporaryDirectory(ignore_cleanup_errors=True)
        to_browser, self.writing = os.pipe()
        self.reading, from_browser = os.pipe()
        self.process = self.started(path, to_browser, from_browser)
        os.close(to_browser)
        os.close(from_browser)
        target = self.call("Target.createTarget", url="about:blank")["targetId"]
        self.session = self.call("Target.attachToTarget", targetId=target, flatten=True)["sessionId"]
        for domain in ("Page", "Runtime", "Log", "Network"):
            self.call(f"{domain}.enable")

    def started(self, path, to_browser, from_browser):
        """The browser reads from its file 3 and writes to its file 4. It is a group of its own, which is ended as a whole."""
        def place():
            os.setsid()
            first, second = os.dup(to_browser), os.dup(from_browser)
            os.dup2(first, 3)
            os.dup2(second, 4)
        words = [path, *WORDS, f"--user-data-dir={self.folder.name}", "about:blank"]
        return subprocess.Popen(words, preexec_fn=place, close_fds=False, stdin=subprocess.DEVNULL, stdout=subprocess.DEVNULL,
                                stderr=subprocess.DEVNULL)

    def __enter__(self):
        return self

    def __exit__(self, *_):
        try:
            os.killpg(self.process.pid, signal.SIGKILL)
        except ProcessLookupError:
            pass
        self.process.wait()
        os.close(self.writing)
        os.close(self.reading)
        self.folder.cleanup()

    def call(self, method, **words):
        """The result of a call of the protocol."""
        self.number += 1
        message = {"id": self.number, "method": method, "params": words}
        if self.session:
            message["sessionId"] = self.session
        os.write(self.writing, json.dumps(message).encode() + b"\0")
        number, until = self.number, time.monotonic() + self.seconds
        while True:
            answer = self.next_message(until)
            if answer.get("id") == number:
                if "error" in answer:
                    raise RuntimeError(f"{method}: {answer['error']}")
                return answer["result"]

    def next_message(self, until):
        while b"\0" not in self.rest:
            ready, _, _ = select.select([self.reading], [], [], max(until - time.monotonic(), 0))
            piece = os.read(self.reading, 1 << 20) if ready else b""
            if not piece:
                raise TimeoutError("the browser gives no answer")
            self.rest += piece
        text, _, self.rest = self.rest.partition(b"\0")
        message = json.loads(text)
        self.note(message.get("method"), message.get("params", {}))
        return message

    def note(self, method, words):
        """Notes errors, and what is fetched."""
        if method == "Runtime.exceptionThrown":
            details = words["exceptionDetails"]
            self.errors.append(details.get("exception", {}).get("description", details["text"]))
        elif method == "Log.entryAdded" and words["entry"]["level"] in ("error", "warning"):
            self.errors.append(words["entry"]["text"])
        elif method == "Runtime.consoleAPICalled" and words["type"] in ("error", "warning"):
            self.errors.append(str(words["args"]))
        elif method == "Network.requestWillBeSent":
            self.fetched.append(words["request"]["url"])

    def value(self, script):
        """The value of an expression, once it is there if it is a promise."""
        result = self.call("Runtime.evaluate", expression=script, awaitPromise=True, returnByValue=True)
        if "exceptionDetails" in result:
            raise RuntimeError(result["exceptionDetails"].get("exception", {}).get("description", "an error"))
        return result["result"].get("value")

    def until(self, script):
        """Waits until an expression is true."""
        end = time.monotonic() + self.seconds
        while not self.value(script):
            if time.monotonic() > end:
                raise TimeoutError(script)
            time.sleep(0.02)

    def open(self, url, ready):
        self.call("Page.navigate", url="about:blank")
        self.call("Page.navigate", url=url)
        self.until(ready)

    def size(self, width, height, mobile=False):
        self.call("Emulation.setDeviceMetricsOverride", width=width, height=height, deviceScaleFactor=1, mobile=mobile)

    def colours(self, name, forced="none"):
        features = {"prefers-color-scheme": name, "forced-colors": forced}
        self.call("Emulation.setEmulatedMedia", features=[{"name": key, "value": value} for key, value in features.items()])

    def click(self, x, y):
        for kind in ("mousePressed", "mouseReleased"):
            self.call("Input.dispatchMouseEvent", type=kind, x=x, y=y, button="left", clickCount=1)

    def press(self, key, text="", modifiers=0):
        """Presses a key: Alt is 1, Ctrl 2, Shift 8."""
        code = {"Enter": 13, "Tab": 9, "Backspace": 8, "Delete": 46, "Escape": 27}.get(key, 0)
        self.call("Input.dispatchKeyEvent", type="keyDown", key=key, text=text, modifiers=modifiers, windowsVirtualKeyCode=code)
        self.call("Input.dispatchKeyEvent", type="keyUp", key=key, modifiers=modifiers, windowsVirtualKeyCode=code)

    def write(self, words):
        for letter in words:
            self.press(letter, letter)

    def drawn(self):
        """Waits until the next picture is drawn."""
        self.value("new Promise((done) => requestAnimationFrame(() => requestAnimationFrame(done)))")

    def screenshot(self):
        """What is to be seen, as the bytes of a PNG."""
        self.drawn()
        return base64.b64decode(self.call("Page.captureScreenshot", format="png")["data"])

    def printed(self):
        """The page as it is printed, as the bytes of a PDF."""
        return base64.b64decode(self.call("Page.printToPDF", printBackground=False, preferCSSPageSize=True)["data"])
