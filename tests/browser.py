"""A headless Chromium, driven by its own protocol over two pipes: pages, what they say, keys, pointers and pictures."""
import base64
import contextlib
import glob
import json
import os
import select
import shutil
import subprocess
import sys
import tempfile
import time

WAIT = 120
# A registry that doesn't answer is given up soon.
APT = ["-o", "Acquire::Retries=1", "-o", "Acquire::http::Timeout=30"]


class PageFault(Exception):
    """The page did what it must not, or didn't do what it must."""


def chromium():
    """Chromium's program; Debian's package is installed where it isn't there, by root."""
    found = shutil.which("chromium")
    if not found and os.geteuid() == 0:
        print("browser: installing chromium", file=sys.stderr, flush=True)
        for words in (["update"], ["install", "-y", "--no-install-recommends", "chromium"]):
            subprocess.run(["apt-get", "-qq", *APT, *words], stdin=subprocess.DEVNULL, stdout=sys.stderr)
        found = shutil.which("chromium")
    return found


@contextlib.contextmanager
def browser(*flags):
    """A browser of its own profile, which ends with the block."""
    with tempfile.TemporaryDirectory(prefix="pdbench-browser-", ignore_cleanup_errors=True) as profile:
        to_read, to_write = os.pipe(), os.pipe()

        def streams():
            # Copies first: the pipes may themselves be 3 and 4.
            ends = [os.dup(to_read[0]), os.dup(to_write[1])]
            for place, end in enumerate(ends):
                os.dup2(end, 3 + place)

        words = [chromium(), "--headless=new", "--no-sandbox", "--disable-dev-shm-usage", "--disable-gpu", "--no-first-run",
                 "--disable-extensions", "--disable-component-update", "--disable-background-networking",
                 f"--user-data-dir={profile}", "--remote-debugging-pipe", *flags, "about:blank"]
        process = subprocess.Popen(words, stdin=subprocess.DEVNULL, stdout=subprocess.DEVNULL, stderr=subprocess.DEVNULL,
            close_fds=False, preexec_fn=streams)
        os.close(to_read[0])
        os.close(to_write[1])
        try:
            yield Browser(to_read[1], to_write[0], process.pid)
        finally:
            process.terminate()
            process.wait()


def processor_times():
    """For each process its parent, and the seconds that it has had of a processor."""
    found, ticks = {}, os.sysconf("SC_CLK_TCK")
    for path in glob.glob("/proc/[0-9]*/stat"):
        with contextlib.suppress(OSError), open(path) as stat:
            words = stat.read().rpartition(")")[2].split()
            found[int(path.split("/")[2])] = int(words[1]), (int(words[11]) + int(words[12])) / ticks
    return found


class Browser:
    def __init__(self, out, into, process):
        self.out, self.into, self.process, self.number, self.rest, self.events = out, into, process, 0, b"", []

    def processor_time(self):
        """The seconds that the browser has had of a processor, with all processes that it started."""
        times, wanted = processor_times(), [self.process]
        for parent in wanted:
            wanted += [process for process, (it, _) in times.items() if it == parent]
        return sum(times[process][1] for process in wanted if process in times)

    def call(self, method, session=None, **words):
        """Asks for something, and answers what comes of it; events that come before are kept."""
        self.number += 1
        asked = {"id": self.number, "method": method, "params": words, **({"sessionId": session} if session else {})}
        os.write(self.out, json.dumps(asked).encode() + b"\0")
        until = time.monotonic() + WAIT
        while True:
            for told in self.read(until):
                if told.get("id") == self.number:
                    if "error" in told:
                        raise PageFault(f"{method}: {told['error']['message']}")
                    return told["result"]
                self.events.append(told)

    def read(self, until):
        """The messages that have come; waits for one up to a time."""
        left = max(until - time.monotonic(), 0)
        if not select.select([self.into], [], [], left)[0]:
            raise PageFault("the browser doesn't answer")
        *whole, self.rest = (self.rest + os.read(self.into, 1 << 20)).split(b"\0")
        return [json.loads(it) for it in whole]

    def drain(self):
        while select.select([self.into], [], [], 0)[0]:
            self.events += self.read(time.monotonic() + 1)

    def page(self, address, width=1280, height=800, dark=False):
        return Page(self, address, width, height, dark)


class Page:
    """A page in a tab of its own."""

    def __init__(self, browser, address, width, height, dark):
        self.browser = browser
        self.target = browser.call("Target.createTarget", url="about:blank")["targetId"]
        self.session = browser.call("Target.attachToTarget", targetId=self.target, flatten=True)["sessionId"]
        for domain in ("Page", "Runtime", "Network", "Log"):
            self.call(f"{domain}.enable")
        self.size(width, height)
        self.call("Emulation.setEmulatedMedia", features=[{"name": "prefers-color-scheme", "value": "dark" if dark else "light"}])
        self.go(address)

    def call(self, method, **words):
        return self.browser.call(method, self.session, **words)

    def size(self, width, height, mobile=False):
        self.call("Emulation.setDeviceMetricsOverride", width=width, height=height, deviceScaleFactor=1, mobile=mobile)

    def go(self, address):
        self.call("Page.navigate", url=address)
        self.until(f"document.readyState === 'complete' && (location.href !== 'about:blank') === {json.dumps(address != 'about:blank')}")

    def value(self, script):
        """What a script in the page comes to."""
        told = self.call("Runtime.evaluate", expression=script, returnByValue=True, awaitPromise=True)
        if "exceptionDetails" in told:
            thrown = told["exceptionDetails"]
            raise PageFault(f"{script}: {thrown.get('exception', {}).get('description', thrown['text'])}")
        return told["result"].get("value")

    def until(self, script, wait=WAIT):
        """Waits until a script comes to something true, and answers that."""
        until = time.monotonic() + wait
        while True:
            found = self.value(script)
            if found:
                return found
            if time.monotonic() > until:
                raise PageFault(f"never so: {script}")
            time.sleep(0.02)

    def press(self, key, code=None, number=0, text=None, modifiers=0):
        """A key; modifiers: 1 Alt, 2 Control, 8 Shift."""
        words = {"key": key, "code": code or key, "windowsVirtualKeyCode": number, "modifiers": modifiers}
        self.call("Input.dispatchKeyEvent", type="keyDown" if text else "rawKeyDown", **words, **({"text": text} if text else {}))
        self.call("Input.dispatchKeyEvent", type="keyUp", **words)

    def type(self, text):
        self.call("Input.insertText", text=text)

    def point(self, kind, x, y, **words):
        self.call("Input.dispatchMouseEvent", type=kind, x=x, y=y, **words)

    def click(self, x, y, modifiers=0):
        for kind in ("mousePressed", "mouseReleased"):
            self.point(kind, x, y, button="left", clickCount=1, modifiers=modifiers)

    def tap(self, x, y):
        """A finger that touches and is taken away."""
        self.call("Emulation.setTouchEmulationEnabled", enabled=True)
        self.call("Input.dispatchTouchEvent", type="touchStart", touchPoints=[{"x": x, "y": y}])
        self.call("Input.dispatchTouchEvent", type="touchEnd", touchPoints=[])
        self.call("Emulation.setTouchEmulationEnabled", enabled=False)

    def picture(self, path):
        path.write_bytes(base64.b64decode(self.call("Page.captureScreenshot", format="png")["data"]))

    def told(self, *methods):
        """The events of these kinds so far."""
        self.browser.drain()
        return [it["params"] for it in self.browser.events if it.get("sessionId") == self.session and it.get("method") in methods]

    def complaints(self):
        """What the page threw, or the browser wrote of it."""
        thrown = [it["exceptionDetails"].get("exception", {}).get("description", "") for it in self.told("Runtime.exceptionThrown")]
        return thrown + [it["entry"]["text"] for it in self.told("Log.entryAdded") if it["entry"]["level"] in ("error", "warning")]

    def requests(self):
        """The addresses that the page asked for."""
        return [it["request"]["url"] for it in self.told("Network.requestWillBeSent")]

    def close(self):
        self.browser.call("Target.closeTarget", targetId=self.target)
